//! Timelines as files: every firing of every example is in them, and no other.

mod common;

use std::collections::HashMap;
use std::fs;

use common::{dayomlak, Folder, ROOT, VECTOR_SUM};

/// How often each wire of a VCD file becomes 1, and what each cell becomes last, by name.
fn read_vcd(text: &str) -> (HashMap<String, usize>, HashMap<String, String>) {
    let (head, body) = text.split_once("$enddefinitions $end\n").unwrap();
    let mut names: HashMap<&str, (&str, &str)> = HashMap::new();
    for line in head.lines().filter(|line| line.starts_with("$var ")) {
        let words: Vec<&str> = line.split(' ').collect();
        assert_eq!((words.len(), words[5]), (6, "$end"), "{line}");
        assert!(
            names.insert(words[3], (words[2], words[4])).is_none(),
            "{line}"
        );
    }
    let (mut pulses, mut cells) = (HashMap::new(), HashMap::new());
    let mut time = None;
    for line in body.lines() {
        if let Some(now) = line.strip_prefix('#') {
            let now: usize = now.parse().unwrap();
            assert!(time < Some(now), "{line}");
            time = Some(now);
        } else if let Some((value, id)) = line.strip_prefix('b').and_then(|l| l.split_once(' ')) {
            assert_eq!(names[id].0, "32", "{line}");
            cells.insert(names[id].1.to_string(), value.to_string());
        } else {
            let (value, id) = line.split_at(1);
            assert_eq!(names[id].0, "1", "{line}");
            *pulses.entry(names[id].1.to_string()).or_insert(0) += usize::from(value == "1");
        }
    }
    (pulses, cells)
}

#[test]
fn every_firing_of_every_example() {
    let folder = Folder::new();
    let (wave, picture) = (folder.path("x.vcd"), folder.path("x.svg"));
    for example in fs::read_dir(format!("{ROOT}/examples")).unwrap() {
        let name = example.unwrap().file_name().into_string().unwrap();
        let file = format!("examples/{name}/{name}.ttda");
        let run = dayomlak(&["run", &file, "--json"]);
        let firings = run.out.split("\"firings\":").nth(1).unwrap();
        let firings: usize = firings.split(',').next().unwrap().parse().unwrap();
        for options in [&[][..], &["--order", "random:5"], &["--processors", "1"]] {
            let done = dayomlak(&[&["timeline", &file, "-o", &wave], options].concat());
            assert_eq!(done.status, run.status, "{name}");
            let (pulses, cells) = read_vcd(&fs::read_to_string(&wave).unwrap());
            // Another order may be refused elsewhere; then it has fired something else.
            if !run.out.contains("\"word\":\"refused\"") {
                assert_eq!(
                    pulses.values().sum::<usize>(),
                    firings,
                    "{name} {options:?}"
                );
                let present = run.out.matches("\"state\":\"present\"").count();
                let written = cells
                    .values()
                    .filter(|value| !"xz".contains(value.as_str()));
                assert_eq!(written.count(), present, "{name} {options:?}");
            }
        }
        let done = dayomlak(&["timeline", &file, "-o", &picture]);
        assert_eq!(done.status, run.status, "{name}");
        let svg = fs::read_to_string(&picture).unwrap();
        assert_eq!(svg.matches("<title>").count(), firings, "{name}");
    }
}

#[test]
fn values_of_cells() {
    let folder = Folder::new();
    let wave = folder.path("x.VCD");
    for options in [&[][..], &["--steps"]] {
        dayomlak(&[&["timeline", VECTOR_SUM, "-o", &wave], options].concat());
        let (pulses, cells) = read_vcd(&fs::read_to_string(&wave).unwrap());
        assert_eq!((pulses["c"], pulses["A_1_"], pulses["done"]), (4, 1, 0));
        let cell = |number: i32| i64::from_str_radix(&cells[&format!("C_{number}_")], 2).unwrap();
        assert_eq!((cell(1), cell(2) as i32, cell(4)), (23, -29, 49));
    }
}

#[test]
fn wrong_timelines() {
    let folder = Folder::new();
    let (wave, other) = (folder.path("x.vcd"), folder.path("x.gif"));
    for arguments in [
        &["timeline", VECTOR_SUM][..],
        &["timeline", VECTOR_SUM, "-o", &other],
        &[
            "timeline", VECTOR_SUM, "-o", &wave, "--steps", "--order", "newest",
        ],
        &["timeline", VECTOR_SUM, "-o", &wave, "--processors", "0"],
    ] {
        let done = dayomlak(arguments);
        assert_eq!((done.status, &done.out[..]), (2, ""), "{arguments:?}");
    }
    assert!(!folder.exists("x.vcd") && !folder.exists("x.gif"));
    let file = folder.write("g.ttda", "a: SINK\ninput a = 1\n");
    let done = dayomlak(&["timeline", &file, "-o", &file]);
    assert_eq!(done.status, 2, "{done:?}");
}
