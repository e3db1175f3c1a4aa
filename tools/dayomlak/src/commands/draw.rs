//! `dayomlak draw`.

use std::path::Path;

use super::load;
use crate::cli::Draw;
use crate::failure::{self, Failure};
use crate::graphviz;
use crate::output::Target;
use crate::pictures::{self, dot, Form};

pub fn draw(args: &Draw) -> Result<u8, Failure> {
    let form = match (&args.output, args.dot) {
        (Some(path), false) => Form::of(path)?,
        _ => Form::Svg,
    };
    let program = load(&args.file.file)?;
    let output = args.output.as_deref().unwrap_or(Path::new("-"));
    let target = Target::new(output, &program.sources)?;
    let caption = format!(
        "{}\ngraph and inputs {}, not run\n{}",
        program.label,
        pictures::fingerprint(&program.files),
        plotter::date(plotter::now())
    );
    let text = dot::text(&program, &caption);
    let bytes = match args.dot {
        true => text.into_bytes(),
        false => form.drawn(graphviz::svg(&text)?)?,
    };
    target.write(&bytes)?;
    Ok(failure::COMPLETED)
}
