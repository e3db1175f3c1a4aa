//! The page of the studio: that of a run, with an editor and more to press. Its script and style are those of the report
//! and then its own.

use crate::report::html::{escaped, fill};
use crate::report::{PAGE, SCRIPT, STYLE};

const HEAD: &str = "<link rel=\"stylesheet\" href=\"page.css\">";
const SCRIPTS: &str = "<script src=\"page.js\"></script>";
const KEYS: &str =
    "Keys: 0 to 9 fire, ← → Home End, Space plays, Ctrl-S saves, Escape leaves the text";
const HINT: &str = "Click on a glowing instruction to fire it, on another one (or with Shift) for its tokens, on a curve to go there";
/// The page is shown before anything is known of the text.
const NOTHING: &str = "{\"before\":0,\"carriedOn\":false,\"firings\":[],\"refused\":null,\"enabled\":[],\"held\":[],\"tokens\":[],\
    \"cells\":[],\"steps\":[],\"firstStep\":1,\"fault\":\"\"}";

pub fn html(label: &str) -> String {
    let parts = [
        ("head", HEAD),
        ("label", &escaped(label)),
        ("kind", "open"),
        ("answer", "studio"),
        ("facts", ""),
        ("refusal", include_str!("refusal.html")),
        ("tools", include_str!("tools.html")),
        ("keys", KEYS),
        ("editor", include_str!("editor.html")),
        ("picture", ""),
        ("hint", HINT),
        ("profile", ""),
        ("curves", ""),
        ("left", ""),
        ("listing", ""),
        ("source", ""),
        ("data", NOTHING),
        ("script", SCRIPTS),
    ];
    fill(PAGE, &parts.map(|(name, part)| (name, part.to_string())))
}

pub fn style() -> String {
    STYLE.to_string() + include_str!("studio.css")
}

pub fn script() -> String {
    [
        SCRIPT,
        include_str!("editor.js"),
        include_str!("file.js"),
        include_str!("studio.js"),
    ]
    .concat()
}
