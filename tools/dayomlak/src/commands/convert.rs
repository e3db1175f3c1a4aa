//! `dayomlak convert`: records of paths of four levels to those of eight.

use std::fs;
use std::io;
use std::path::{Path, PathBuf};

use crate::cli::{Convert, Kind};
use crate::failure::{self, Failure};
use crate::forms::{self, Doubt, Form, Reason};
use crate::output::Target;
use crate::{log_file, program, saved};

/// A file that is to be written, and what is said of it.
struct Written {
    path: PathBuf,
    bytes: Vec<u8>,
    words: String,
}

/// Everything is read and made before anything is written.
pub fn convert(args: &Convert) -> Result<u8, Failure> {
    let files = match args.old.is_dir() {
        true => folder(args)?,
        false => vec![file(args, &args.old, &args.new, &forms::ANY)?],
    };
    if !args.force {
        let there = files.iter().find(|file| file.path.exists());
        if let Some(file) = there {
            return Err(Failure::file(&file.path, is_there()));
        }
    }
    if args.old.is_dir() {
        fs::create_dir_all(&args.new).map_err(|error| Failure::file(&args.new, error))?;
    }
    // `--force` allows the old file itself, too.
    let targets = files.iter().map(|file| Target::new(&file.path, &[]));
    let targets = targets.collect::<Result<Vec<Target>, Failure>>()?;
    for (file, target) in files.iter().zip(&targets) {
        target.write(&file.bytes)?;
        target.say(&file.words)?;
    }
    Ok(failure::COMPLETED)
}

fn is_there() -> io::Error {
    let words = "it is there already; --force overwrites it";
    io::Error::new(io::ErrorKind::AlreadyExists, words)
}

/// The files of a folder. A missing one stays missing.
fn folder(args: &Convert) -> Result<Vec<Written>, Failure> {
    if args.new.is_file() {
        return Err(Failure::file(&args.new, program::no_folder()));
    }
    let mut files = Vec::new();
    for name in ["graph", "arrays", "inputs", "picks"] {
        let (old, new) = (args.old.join(name), args.new.join(name));
        match name {
            _ if !old.exists() => (),
            "inputs" => files.push(file(args, &old, &new, &forms::TOKENS)?),
            _ => files.push(copy(&old, &new)?),
        }
    }
    match files.is_empty() {
        true => Err(Failure::Wrong(format!(
            "{} has no file `graph`, `arrays`, `inputs` or `picks`\n  a listing or a log is converted by its own name",
            args.old.display()
        ))),
        false => Ok(files),
    }
}

/// Instructions, arrays and picks have no path.
fn copy(old: &Path, new: &Path) -> Result<Written, Failure> {
    Ok(Written {
        path: new.to_path_buf(),
        bytes: fs::read(old).map_err(|error| Failure::file(old, error))?,
        words: format!("{}: copied to {}\n", old.display(), new.display()),
    })
}

/// The new records of a file that is one of the known forms.
fn file(args: &Convert, old: &Path, new: &Path, known: &[Form]) -> Result<Written, Failure> {
    let bytes = fs::read(old).map_err(|error| Failure::file(old, error))?;
    if let Some(words) = without_old_records(old, &bytes) {
        let text = format!(
            "{} is {words}\n  there is nothing to convert",
            old.display()
        );
        return Err(Failure::Wrong(text));
    }
    let (form, reason) = form(args.kind, old, &bytes, known)?;
    let why = because(&reason, bytes.len());
    if !form.is_old() {
        return Err(Failure::Wrong(format!(
            "{} has {} already{why}\n  there is nothing to convert",
            old.display(),
            form.words(bytes.len()),
        )));
    }
    let widened = widened(old, form, &bytes)?;
    let words = format!(
        "{}: {}{why}\n{}: {}\n",
        old.display(),
        form.words(bytes.len()),
        new.display(),
        form.widened().words(widened.len()),
    );
    Ok(Written {
        path: new.to_path_buf(),
        bytes: widened,
        words,
    })
}

/// What a file is that never had old records.
fn without_old_records(old: &Path, bytes: &[u8]) -> Option<&'static str> {
    if bytes.starts_with(log_file::START.as_bytes()) {
        Some("a log that names its run: its records are new ones")
    } else if saved::is_saved(bytes) {
        Some("a saved state: its records are new ones")
    } else if old.extension().is_some_and(|word| word == "ttda") {
        Some("a typed graph: it has no records")
    } else {
        None
    }
}

/// What a file is: as told, or else as it shows.
fn form(
    kind: Option<Kind>,
    old: &Path,
    bytes: &[u8],
    known: &[Form],
) -> Result<(Form, Reason), Failure> {
    match kind {
        None => forms::of(bytes, known).map_err(|doubt| in_doubt(old, bytes.len(), &doubt)),
        Some(Kind::Inputs | Kind::Listing) => Ok((Form::OldTokens, Reason::Told)),
        Some(Kind::Log) if known.contains(&Form::OldLog) => Ok((Form::OldLog, Reason::Told)),
        Some(Kind::Log) => Err(not_a_log(old)),
    }
}

/// What the engine makes of old records.
fn widened(old: &Path, form: Form, bytes: &[u8]) -> Result<Vec<u8>, Failure> {
    let mut new = vec![0; bytes.len() / form.width() * form.widened().width()];
    let answer = match form {
        Form::OldLog => ttda::convert_log(bytes, &mut new),
        _ => ttda::convert(bytes, &mut new),
    };
    match answer.is_done() {
        true => Ok(new),
        false => Err(refused(old, form, bytes.len())),
    }
}

/// Why the engine refuses to convert.
fn refused(old: &Path, form: Form, length: usize) -> Failure {
    let (old, width) = (old.display(), form.width());
    let why = match length % width {
        0 => format!("it has {}, and 2,048 are the most", form.words(length)),
        _ => format!("its {length} bytes are not whole records of {width}"),
    };
    Failure::Refused(format!("refused by 7, bad store: {old}: {why}"))
}

/// How it is known what a file is.
fn because(reason: &Reason, length: usize) -> String {
    match reason {
        Reason::Told => String::new(),
        Reason::Length => ", by its length".to_string(),
        Reason::Bytes(others) => format!(
            ", by its bytes: in length it could be {} too",
            either(others, length)
        ),
    }
}

fn in_doubt(old: &Path, length: usize, doubt: &Doubt) -> Failure {
    let old = old.display();
    let tell = "--as inputs, --as listing or --as log says what it was";
    match doubt {
        Doubt::Broken => Failure::Refused(format!(
            "refused by 7, bad store: {old}: its {length} bytes are not whole records\n  \
             tokens had 20 bytes each, and records of a log 12"
        )),
        Doubt::Several(forms) => Failure::Wrong(format!(
            "{old}: in doubt: its length and its bytes would do for {}\n  {tell}",
            either(forms, length)
        )),
        Doubt::Unreadable(forms) => Failure::Wrong(format!(
            "{old}: in doubt: in length it could be {}, but its bytes are none of them\n  {tell}",
            either(forms, length)
        )),
    }
}

fn either(forms: &[Form], length: usize) -> String {
    let words: Vec<String> = forms.iter().map(|form| form.words(length)).collect();
    words.join(" or ")
}

fn not_a_log(old: &Path) -> Failure {
    Failure::Wrong(format!(
        "{} is a graph's inputs, and not a log\n  a log is converted by its own name",
        old.display()
    ))
}
