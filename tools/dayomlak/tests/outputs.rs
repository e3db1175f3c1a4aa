//! Where what is made goes: never over what was read, all of it or nothing.

mod common;

use std::fs::{self, File, Permissions};
use std::os::unix::fs::{symlink, PermissionsExt};
use std::process::Stdio;

use common::{command, dayomlak, done, Done, Folder};

const SUM: &str = "a: ADD 1 -> b\nb: OUT\ninput a = 1\n";

/// The commands that write one file.
const WRITERS: [&[&str]; 5] = [
    &["draw"],
    &["draw", "--dot"],
    &["report"],
    &["log"],
    &["profile"],
];

fn written(writer: &[&str], file: &str, output: &str) -> Done {
    dayomlak(&[writer, &[file, "-o", output]].concat())
}

fn names(folder: &Folder) -> Vec<String> {
    let entries = fs::read_dir(folder.path("")).unwrap();
    let mut names: Vec<String> = entries
        .map(|entry| entry.unwrap().file_name().into_string().unwrap())
        .collect();
    names.sort();
    names
}

/// The typed graph that was gone: by its own name, another one, and links of both kinds.
#[test]
fn a_typed_graph_is_not_overwritten() {
    let folder = Folder::new();
    let file = folder.write("S.ttda", SUM);
    fs::create_dir(folder.path("sub")).unwrap();
    symlink(&file, folder.path("soft")).unwrap();
    fs::hard_link(&file, folder.path("hard")).unwrap();
    for writer in WRITERS {
        for name in ["S.ttda", "sub/../S.ttda", "soft", "hard"] {
            let done = written(writer, &file, &folder.path(name));
            assert_eq!((&done.out[..], done.status), ("", 2), "{writer:?}, {name}");
            let words = format!("{name} is the graph itself, which would be overwritten\n");
            done.complains(&words);
            assert_eq!(fs::read_to_string(&file).unwrap(), SUM);
        }
    }
    assert_eq!(names(&folder), ["S.ttda", "hard", "soft", "sub"]);
}

/// A graph may be read by a link, or from standard input.
#[test]
fn nor_by_the_other_end() {
    let folder = Folder::new();
    let file = folder.write("S.ttda", SUM);
    symlink(&file, folder.path("soft.ttda")).unwrap();
    let done_by_link = written(&["log"], &folder.path("soft.ttda"), &file);
    assert_eq!(done_by_link.status, 2, "{done_by_link:?}");
    let mut draw = command(&folder, &["draw", "-", "-o", &file]);
    let drawn = done(draw.stdin(Stdio::from(File::open(&file).unwrap())));
    drawn.fails(2);
    assert!(drawn
        .err
        .contains("the file that standard input comes from"));
    assert_eq!(fs::read_to_string(&file).unwrap(), SUM);
}

#[test]
fn files_of_a_folder_are_not_overwritten() {
    let folder = Folder::new();
    let (file, files) = (folder.write("S.ttda", SUM), folder.path("files"));
    assert_eq!(dayomlak(&["asm", &file, &files]).status, 0);
    let graph = fs::read(folder.path("files/graph")).unwrap();
    for writer in WRITERS {
        let done = written(writer, &files, &folder.path("files/graph"));
        assert_eq!(done.status, 2, "{writer:?}");
        let words = "is the file `graph` of the graph, which would be overwritten";
        done.complains(words);
    }
    let asm = dayomlak(&["asm", &files, &files]);
    asm.fails(2);
    assert_eq!(fs::read(folder.path("files/graph")).unwrap(), graph);
    // The last of three names leads to the text: none of them is written.
    fs::create_dir(folder.path("more")).unwrap();
    symlink(&file, folder.path("more/picks")).unwrap();
    assert_eq!(dayomlak(&["asm", &file, &folder.path("more")]).status, 2);
    assert!(!folder.exists("more/graph"));
    assert_eq!(fs::read_to_string(&file).unwrap(), SUM);
}

/// What a link leads to is written, and the link stays one.
#[test]
fn a_link_is_followed() {
    let folder = Folder::new();
    let file = folder.write("S.ttda", SUM);
    fs::create_dir(folder.path("far")).unwrap();
    folder.write("far/old", "old");
    symlink("far/old", folder.path("to_old")).unwrap();
    symlink("to_new_too", folder.path("to_new")).unwrap();
    symlink("far/new", folder.path("to_new_too")).unwrap();
    for (link, end) in [("to_old", "far/old"), ("to_new", "far/new")] {
        let done = written(&["draw", "--dot"], &file, &folder.path(link));
        assert_eq!(done.status, 0, "{done:?}");
        let text = fs::read_to_string(folder.path(end)).unwrap();
        assert!(text.starts_with("digraph"), "{link}");
        assert!(fs::symlink_metadata(folder.path(link))
            .unwrap()
            .is_symlink());
    }
    symlink("round", folder.path("round")).unwrap();
    let done = written(&["draw", "--dot"], &file, &folder.path("round"));
    assert_eq!(done.status, 3);
    done.complains("its links lead round in a circle");
}

/// `-` is standard output; what is said beside it goes to standard error.
#[test]
fn standard_output() {
    let folder = Folder::new();
    let file = folder.write("S.ttda", SUM);
    let output = folder.path("output");
    for writer in WRITERS {
        let to_file = written(writer, &file, &output);
        let bytes = fs::read(&output).unwrap();
        fs::remove_file(&output).unwrap();
        for name in ["-", "/dev/stdout"] {
            let done = written(writer, &file, name);
            assert_eq!((to_file.status, done.status), (0, 0), "{done:?}");
            assert_eq!(done.out.as_bytes(), bytes, "{writer:?}");
            assert_eq!(done.err, to_file.out);
        }
    }
    assert_eq!(names(&folder), ["S.ttda"]);
}

/// What stands in the way, in plain words.
#[test]
fn names_that_cannot_be_written() {
    let folder = Folder::new();
    let file = folder.write("S.ttda", SUM);
    let at = folder.path("");
    fs::create_dir(folder.path("far")).unwrap();
    symlink("far", folder.path("to_folder")).unwrap();
    symlink("gone/x", folder.path("to_nothing")).unwrap();
    let (to_folder, to_nothing) = (folder.path("to_folder"), folder.path("to_nothing"));
    let gone = format!("there is no folder {}", folder.path("gone"));
    let cases = [
        (at.as_str(), "it is a folder: name a file in it"),
        (&to_folder, "it is a folder: name a file in it"),
        (&to_nothing, &gone),
        ("none/", "there is no folder none/"),
        ("no/such/x", "there is no folder no/such"),
        ("README.md/x", "README.md is no folder"),
        ("/dev/full", "the disk is full"),
    ];
    for writer in WRITERS {
        for (name, words) in cases {
            let done = written(writer, &file, name);
            assert_eq!((&done.out[..], done.status), ("", 3), "{writer:?}, {name}");
            assert_eq!(done.err, format!("error: {name}: {words}\n"));
        }
    }
    assert_eq!(names(&folder), ["S.ttda", "far", "to_folder", "to_nothing"]);
    fs::create_dir_all(folder.path("made/picks")).unwrap();
    let asm = dayomlak(&["asm", &file, &folder.path("made")]);
    asm.fails(3);
    assert!(asm.err.contains("it is a folder: name a file in it"));
    assert!(!folder.exists("made/graph"));
}

/// A file that is written anew keeps who may read it.
#[test]
fn permissions_stay() {
    let folder = Folder::new();
    let file = folder.write("S.ttda", SUM);
    let log = folder.write("log", "old");
    fs::set_permissions(&log, Permissions::from_mode(0o640)).unwrap();
    assert_eq!(written(&["log"], &file, &log).status, 0);
    let known = fs::metadata(&log).unwrap();
    assert_eq!(known.permissions().mode() & 0o777, 0o640);
    assert_ne!(fs::read(&log).unwrap(), b"old");
    assert_eq!(names(&folder), ["S.ttda", "log"]);
}
