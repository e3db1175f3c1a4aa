//! `dayomlak asm` and `dayomlak disasm`.

use std::fs;

use asm::disassemble;

use super::load;
use crate::cli::{Asm, Disasm};
use crate::failure::{self, Failure};
use crate::output::{self, Target};
use crate::program;

pub fn asm(args: &Asm) -> Result<u8, Failure> {
    let program = load(&args.file.file)?;
    let folder = &args.folder;
    if folder.is_file() {
        return Err(Failure::file(folder, program::no_folder()));
    }
    fs::create_dir_all(folder).map_err(|error| Failure::file(folder, error))?;
    let target = |name: &str| Target::new(&folder.join(name), &program.sources);
    // None is written if one cannot be.
    let (graph, arrays) = (target("graph")?, target("arrays")?);
    let (inputs, picks) = (target("inputs")?, target("picks")?);
    graph.write(&program.files.graph)?;
    arrays.write(&program.files.arrays)?;
    inputs.write(&program.files.inputs)?;
    picks.write(&program.files.picks)?;
    Ok(failure::COMPLETED)
}

pub fn disasm(args: &Disasm) -> Result<u8, Failure> {
    let files = program::files(&args.folder)?;
    let text = disassemble(&files)
        .map_err(|text| Failure::Wrong(format!("{}: {text}", args.folder.display())))?;
    output::print(text.as_bytes())?;
    Ok(failure::COMPLETED)
}
