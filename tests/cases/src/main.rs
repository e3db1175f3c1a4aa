//! Writes the input of `engine_main` and what it has to print: `cargo run -p cases`
//! after an edit of the description.

use std::fs;
use std::path::PathBuf;

fn main() {
    let cases = cases::all();
    let folder = PathBuf::from(env!("CARGO_MANIFEST_DIR")).join("../../crates/engine_main");
    let mut wrong = 0;
    for case in &cases {
        let answer = cases::line_of(&cases::run(&case.lent).answer);
        if answer != case.says {
            println!("{}: {answer}, due {}", case.name, case.says);
            wrong += 1;
        }
    }
    if wrong > 0 {
        println!("{wrong} cases differ: nothing is written");
        std::process::exit(1);
    }
    fs::write(folder.join("stdin"), cases::input(&cases)).expect("the input can be written");
    let output = cases::output(&cases, &cases::run);
    fs::write(folder.join("stdout"), output).expect("the output can be written");
    println!("{} cases", cases.len());
}
