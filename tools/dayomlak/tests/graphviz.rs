//! Which Graphviz is called. It is a script here, which answers by how it was called.

mod common;

use std::fs::{self, Permissions};
use std::os::unix::fs::PermissionsExt;
use std::process::Command;

use common::{done, Folder, ROOT};

/// All is read by the shell itself, since PATH leads nowhere else.
const SCRIPT: &str = "#!/bin/sh
while read -r line; do :; done
echo \"${0##*/} $*, GVBINDIR=$GVBINDIR, here: $(echo dot*)\"
";

fn write_script(path: &str) {
    fs::write(path, SCRIPT).unwrap();
    fs::set_permissions(path, Permissions::from_mode(0o755)).unwrap();
}

/// A release's folders, with a colon in their path.
fn make_release(folder: &Folder) {
    for name in ["a: b/bin", "a: b/lib/graphviz", "system"] {
        fs::create_dir_all(folder.path(name)).unwrap();
    }
    fs::copy(
        env!("CARGO_BIN_EXE_dayomlak"),
        folder.path("a: b/bin/dayomlak"),
    )
    .unwrap();
    folder.write("a: b/lib/graphviz/dot", "");
    write_script(&folder.path("a: b/lib/graphviz/ld-linux-x86-64.so.2"));
    write_script(&folder.path("system/dot"));
}

fn drawn(folder: &Folder, path: &str) -> String {
    let mut command = Command::new(folder.path("a: b/bin/dayomlak"));
    command.current_dir(ROOT).env_clear().env("PATH", path);
    let done = done(command.args(["draw", "examples/call/call.ttda"]));
    assert_eq!((done.status, &done.err[..]), (0, ""));
    done.out
}

/// One test, since a file that another thread has open for writing cannot be run.
#[test]
fn the_systems_and_else_that_of_the_release() {
    let folder = Folder::new();
    make_release(&folder);
    assert_eq!(
        drawn(&folder, &folder.path("system")),
        "dot -Tsvg, GVBINDIR=, here: dot*\n"
    );
    assert_eq!(
        drawn(&folder, &folder.path("nothing")),
        "ld-linux-x86-64.so.2 --library-path . ./dot -Tsvg, GVBINDIR=., here: dot\n"
    );
}
