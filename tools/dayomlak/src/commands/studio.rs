//! `dayomlak studio`.

use crate::cli;
use crate::failure::{self, Failure};
use crate::output;
use crate::studio::document::Document;
use crate::studio::{server, Studio};

/// Serves until it is ended.
pub fn studio(args: &cli::Studio) -> Result<u8, Failure> {
    let document = Document::open(&args.file)?;
    let file = &document.label;
    let words = match document.is_there() {
        true => format!("{file} is open there, for this computer alone"),
        false => {
            format!("there is no {file} yet: Save makes it; the page is for this computer alone")
        }
    };
    let listener = server::listener(args.port.unwrap_or(0))?;
    let studio = Studio::new(document, args.buffers.sizes(), &listener)?;
    let address = studio.address();
    output::print(format!("{address}\n{words}; Ctrl-C ends it\n").as_bytes())?;
    server::serve(&listener, studio);
    Ok(failure::COMPLETED)
}
