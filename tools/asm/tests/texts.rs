//! Texts, their files, and where everything stands.

use asm::{assemble, disassemble, read, read_order};
use layout::fields::instruction;
use layout::widths;

const SUM: &str = "# the sum of 01
sum: ADD -> out.0
out: OUT
input sum.0 = 7   # port 0
input sum.1 = -9
picks 0 258
";

#[test]
fn a_text_gives_the_records() {
    let files = assemble(SUM).unwrap();
    let graph = [
        [16, 1, 0, 0, 1, 0, 0, 0, 0, 0, 0, 0, 0, 0, 0, 0],
        [3, 0, 0, 0, 0, 0, 0, 0, 0, 0, 0, 0, 0, 0, 0, 0],
    ];
    assert_eq!(files.graph, graph.concat());
    let inputs = [layout::input(0, 0, 7), layout::input(0, 1, -9)];
    assert_eq!(files.inputs, inputs.concat());
    assert_eq!(files.picks, [0, 0, 2, 1]);
}

const FORMS: &str = "\
a: COPY -> b c.1
b: CONST -5 -> c.0
c: SWITCH -> d.0 e.0
d: GATE -> f.1
   SINK
e: NEXT->f.0
f: EQ -> g.0
g: EQ 3 -> h.0 i.1
h: ENTER site 255 -> k.0 return d
i: STORE -> m.0
k: LEAVE 255
l: FETCH -> i.0
m: raw 63 00 00 00 00 00 00 00 00 00 00 00 00 00 00 ff
";

#[test]
fn every_form_of_an_instruction() {
    // A raw record of unknown code has no ports.
    let errors = assemble(FORMS).unwrap_err();
    assert_eq!(
        errors.to_string(),
        "line 10: `m` has no port 0, its operand count is 0"
    );
    let files = assemble(&FORMS.replace("i: STORE -> m.0", "i: STORE")).unwrap();
    let record = |number: usize| layout::record(&files.graph, number);
    assert_eq!(record(0), [1, 2, 0, 1, 1, 0, 2, 0, 0, 0, 0, 0, 0, 0, 0, 0]);
    assert_eq!(
        record(1),
        [4, 1, 0, 0, 2, 0, 0, 0, 0xfb, 0xff, 0xff, 0xff, 0, 0, 0, 0]
    );
    assert_eq!(record(7), [39, 2, 0, 1, 8, 0, 9, 0, 3, 0, 0, 0, 0, 0, 0, 0]);
    assert_eq!(
        record(8),
        [8, 2, 0, 0, 10, 0, 3, 0, 255, 0, 0, 0, 0, 0, 0, 0]
    );
    assert_eq!(
        record(10),
        [9, 0, 0, 0, 0, 0, 0, 0, 255, 0, 0, 0, 0, 0, 0, 0]
    );
    assert_eq!(record(12)[instruction::ZEROS.end - 1], 255);
}

#[test]
fn the_text_of_files() {
    let files = assemble(SUM).unwrap();
    let text = "add0: ADD -> out1.0\nout1: OUT\ninput add0.0 = 7\ninput add0.1 = -9\npicks 0 258\n";
    assert_eq!(disassemble(&files).unwrap(), text);
}

#[test]
fn files_that_are_not_whole_records_have_no_text() {
    for (graph, arrays, inputs, picks) in
        [(17, 0, 0, 0), (16, 5, 0, 0), (16, 4, 29, 0), (16, 0, 28, 1)]
    {
        let files = asm::Files {
            graph: vec![0; graph],
            arrays: vec![0; arrays],
            inputs: vec![0; inputs],
            picks: vec![0; picks],
        };
        assert!(disassemble(&files).unwrap_err().contains("whole records"));
    }
}

#[test]
fn everything_has_its_place() {
    let text = "a: COPY -> b b.0 # twice\n  SINK\nb: SINK\ncell 3 = -7\ninput a = 1\n";
    let program = read(text).unwrap();
    let names: Vec<&str> = program.instructions.iter().map(|i| &i.name[..]).collect();
    assert_eq!(names, ["a", "#1", "b", "cell 3"]);
    let places = program.instructions.iter().map(|i| &i.place);
    let places: Vec<_> = places.map(|place| (place.line, place.column)).collect();
    assert_eq!(places, [(1, 1), (2, 3), (3, 1), (4, 1)]);
    let first = &program.instructions[0];
    assert_eq!(&text[first.place.span.clone()], "a: COPY -> b b.0");
    let arcs: Vec<&str> = first.arcs.iter().map(|arc| &text[arc.clone()]).collect();
    assert_eq!(arcs, ["b", "b.0"]);
    let inputs: Vec<&str> = program
        .inputs
        .iter()
        .map(|i| &text[i.span.clone()])
        .collect();
    assert_eq!(inputs, ["cell 3 = -7", "cell 3 = -7", "input a = 1"]);
}

#[test]
fn a_cell_is_loaded_by_a_store() {
    let short = assemble("out: OUT\ncell 3 = -7\ninput out = 1\n").unwrap();
    let long = "out: OUT\nc: STORE\ninput c.0 = 3\ninput c.1 = -7\ninput out = 1\n";
    assert_eq!(short, assemble(long).unwrap());
    // A name `cell` is still a name.
    assert!(assemble("cell: OUT\ninput cell.0 = 3\n").is_ok());
}

/// The files have the low ends, and every range is kept with its input and its place.
#[test]
fn ranges_beside_the_files() {
    let text = "array a = 3\nx: ADD -> out\nout: OUT\ncell 7 = -9..-7\ninput x.0=3..5\ninput x.1 = 4\na[2] = -2147483648..2147483647\n";
    let program = read(text).unwrap();
    let lows = "array a = 3\nx: ADD -> out\nout: OUT\ncell 7 = -9\ninput x.0=3\ninput x.1 = 4\na[2] = -2147483648\n";
    assert_eq!(program.files, assemble(lows).unwrap());
    let ranges = program.ranges.iter();
    let ranges: Vec<_> = ranges
        .map(|r| (r.input, r.low, r.high, &text[r.span.clone()]))
        .collect();
    let expected = [
        (1, -9, -7, "-9..-7"),
        (2, 3, 5, "3..5"),
        (5, i32::MIN, i32::MAX, "-2147483648..2147483647"),
    ];
    assert_eq!(ranges, expected);
    assert_eq!(read(lows).unwrap().ranges, []);
}

/// Arrays take the cells behind those above them, unless a cell is typed, and name them by their numbers.
#[test]
fn arrays_and_their_elements() {
    let text = "array a = 4\narray b = 2 at 20\nf: FETCH b -> s.1\narray none = 0\narray c = 3\narray low = 1 at 2\n\
        array d = 1\ns: STORE c -> g.0\ng: FETCH -> out\nout: OUT\nb[2] = -5\nlow[1]=6\ninput f = 2\n";
    let program = read(text).unwrap();
    let arrays: Vec<_> = program
        .arrays
        .iter()
        .map(|a| (&a.name[..], a.first, a.length))
        .collect();
    let cells = [
        ("a", 0, 4),
        ("b", 20, 2),
        ("none", 22, 0),
        ("c", 22, 3),
        ("low", 2, 1),
        ("d", 25, 1),
    ];
    assert_eq!(arrays, cells);
    let table = [
        0, 0, 4, 0, 20, 0, 2, 0, 22, 0, 0, 0, 22, 0, 3, 0, 2, 0, 1, 0, 25, 0, 1, 0,
    ];
    assert_eq!(program.files.arrays, table);
    let names: Vec<&str> = program.instructions.iter().map(|i| &i.name[..]).collect();
    assert_eq!(names, ["f", "s", "g", "out", "b[2]", "low[1]"]);
    let constants = program
        .files
        .graph
        .chunks_exact(widths::INSTRUCTION)
        .map(|record| record[instruction::CONSTANT.start]);
    assert_eq!(constants.collect::<Vec<u8>>(), [2, 4, 0, 0, 2, 5]);
    assert_eq!(
        &text[program.arrays[1].place.span.clone()],
        "array b = 2 at 20"
    );
    // An element is loaded as by a STORE with inputs.
    let long = text.replace("b[2] = -5", "l: STORE b\ninput l.0 = 2\ninput l.1 = -5");
    assert_eq!(assemble(&long).unwrap(), program.files);
}

#[test]
fn the_text_of_arrays() {
    let files = assemble("array a = 4\nf: FETCH a -> out\nout: OUT\ninput f = 2\n").unwrap();
    let text =
        "array array1 = 4 at 0\nfetch0: FETCH array1 -> out1.0\nout1: OUT\ninput fetch0.0 = 2\n";
    assert_eq!(disassemble(&files).unwrap(), text);
    // `array` and `at` are names, too.
    assert!(assemble("array array = 3 at 5\narray at = 2\narray[3] = 1\nx: OUT\n").is_ok());
    assert!(assemble("array: OUT\ninput array = 3\n").is_ok());
}

#[test]
fn a_byte_order_mark_and_other_line_ends() {
    assert_eq!(
        assemble("\u{feff}a: OUT\r\ninput a = 1\r\n").unwrap(),
        assemble("a: OUT\ninput a = 1").unwrap()
    );
}

/// An order in a text, over two lines, with the names that have a space or a number sign.
const ORDERED: &str = "\
SINK
x: SINK
cell 3 = 4
input x = 1
order x[0] cell 3[0]   # then
order a[1]/#0[255]     # 3 of them
";

#[test]
fn an_order_is_kept_by_names() {
    let program = read(ORDERED).unwrap();
    let names: Vec<&str> = program.order.iter().map(|n| n.name.as_str()).collect();
    assert_eq!(names, ["x[0]", "cell 3[0]", "a[1]/#0[255]"]);
    let spans = program.order.iter().map(|n| &ORDERED[n.span.clone()]);
    assert_eq!(spans.collect::<Vec<_>>(), names);
    assert!(program.files.picks.is_empty());
    // Elsewhere a number sign begins a comment.
    assert!(assemble("x: SINK #0[0]\n").is_ok());
}

#[test]
fn an_order_in_a_file() {
    let text = "\u{feff}# an order\nx[0] cell 3[0]\r\n\norder #0[0]#1 end\n";
    let order = read_order(text).unwrap();
    let names: Vec<&str> = order.iter().map(|n| n.name.as_str()).collect();
    assert_eq!(names, ["x[0]", "cell 3[0]", "#0[0]"]);
    let errors = read_order("x[0]\ny[0], z[0]\n").unwrap_err();
    assert_eq!(
        errors.to_string(),
        "line 2: a comma (words are parted by spaces alone)"
    );
    assert_eq!(read_order(""), Ok(Vec::new()));
}
