//! JSON, such that it can stand inside a page too.

use std::fmt::Write;

/// A string. Nothing in it can end the element or the line that it stands in.
pub fn string(text: &str) -> String {
    let mut quoted = String::from("\"");
    for character in text.chars() {
        match character {
            '"' | '\\' => quoted.extend(['\\', character]),
            '<' | '>' | '&' | '\u{2028}' | '\u{2029}' | '\0'..='\u{1f}' => {
                // Writing to a string does not fail.
                let _ = write!(quoted, "\\u{:04x}", u32::from(character));
            }
            _ => quoted.push(character),
        }
    }
    quoted + "\""
}

pub fn list(items: impl IntoIterator<Item = String>) -> String {
    let items: Vec<String> = items.into_iter().collect();
    format!("[{}]", items.join(","))
}

/// An object of fields whose values are JSON.
pub fn object(fields: &[(&str, String)]) -> String {
    let field = |(name, value): &(&str, String)| format!("{}:{value}", string(name));
    let fields: Vec<String> = fields.iter().map(field).collect();
    format!("{{{}}}", fields.join(","))
}

/// A number, or null.
pub fn maybe(number: Option<usize>) -> String {
    number.map_or("null".to_string(), |number| number.to_string())
}

#[cfg(test)]
mod tests {
    use super::*;

    #[test]
    fn nothing_ends_the_element() {
        let text = "</script>&\"\\\n\u{2028}é";
        let quoted = r#""\u003c/script\u003e\u0026\"\\\u000a\u2028é""#;
        assert_eq!(string(text), quoted);
    }

    #[test]
    fn nested() {
        let fields = [
            ("a", list([maybe(Some(1)), maybe(None)])),
            ("b", string("")),
        ];
        assert_eq!(object(&fields), r#"{"a":[1,null],"b":""}"#);
    }
}
