//! Pictures, and what they carry of what they are of.

pub mod dot;

use std::io::{self, ErrorKind, Write};
use std::path::Path;
use std::process::{Command, Stdio};

use asm::Files;
use plotter::Fingerprint;

use crate::failure::Failure;

/// Forms of pictures that are not drawn.
const OTHER_FORMS: [&str; 5] = ["jpg", "jpeg", "gif", "ps", "eps"];
const MISSING: &str =
    "librsvg is not installed (on Debian: apt-get install librsvg2-bin); a name that ends in .svg needs none";

/// The form that a picture's name asks for.
#[derive(Clone, Copy, Debug, PartialEq, Eq)]
pub enum Form {
    Svg,
    Png,
    Pdf,
}

impl Form {
    /// Any other name is that of an SVG file, unless it promises what is not drawn.
    pub fn of(path: &Path) -> Result<Form, Failure> {
        let form = path.extension().and_then(|form| form.to_str());
        match form.unwrap_or_default().to_lowercase().as_str() {
            "png" => Ok(Form::Png),
            "pdf" => Ok(Form::Pdf),
            other if OTHER_FORMS.contains(&other) => Err(Failure::Wrong(format!(
                "{}: pictures are drawn as SVG, PNG or PDF\n  name it {}",
                path.display(),
                path.with_extension("svg").display()
            ))),
            _ => Ok(Form::Svg),
        }
    }

    /// A picture in this form.
    pub fn drawn(self, svg: Vec<u8>) -> Result<Vec<u8>, Failure> {
        let drawn = match self {
            Form::Svg => return Ok(svg),
            Form::Png => converted(svg, &["--format=png", "--zoom=2"]),
            Form::Pdf => converted(svg, &["--format=pdf"]),
        };
        drawn.map_err(|error| Failure::File("rsvg-convert".to_string(), error))
    }
}

/// What librsvg makes of a picture.
fn converted(svg: Vec<u8>, arguments: &[&str]) -> io::Result<Vec<u8>> {
    let child = Command::new("rsvg-convert")
        .args(arguments)
        .stdin(Stdio::piped())
        .stdout(Stdio::piped())
        .spawn();
    let mut child = child.map_err(|error| match error.kind() {
        ErrorKind::NotFound => io::Error::new(ErrorKind::NotFound, MISSING),
        _ => error,
    })?;
    let mut stdin = child.stdin.take().expect("it is piped");
    // It may begin to write before it has read all.
    let writer = std::thread::spawn(move || stdin.write_all(&svg));
    let output = child.wait_with_output()?;
    writer.join().expect("writing does not panic")?;
    match output.status.success() {
        true => Ok(output.stdout),
        false => Err(io::Error::other(format!("ended with {}", output.status))),
    }
}

/// A fingerprint of graph, arrays and inputs, for a reader to tell two pictures apart.
pub fn fingerprint(files: &Files) -> Fingerprint {
    Fingerprint::of_run(&files.graph, &files.arrays, &files.inputs)
}
