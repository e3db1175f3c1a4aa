//! The markup of a page.

/// Text that stands in an element or an attribute.
pub fn escaped(text: &str) -> String {
    text.replace('&', "&amp;")
        .replace('<', "&lt;")
        .replace('>', "&gt;")
        .replace('"', "&quot;")
        .replace('\'', "&#39;")
}

/// A template in which `{{name}}` stands for a part. Parts are not searched for names: they may hold a user's text.
pub fn fill(template: &str, parts: &[(&str, String)]) -> String {
    let mut pieces = template.split("{{");
    let mut page = pieces.next().unwrap_or_default().to_string();
    for piece in pieces {
        let (name, rest) = piece.split_once("}}").unwrap_or((piece, ""));
        let part = parts.iter().find(|(known, _)| *known == name);
        debug_assert!(part.is_some(), "no part {name}");
        page += part.map_or("", |(_, part)| part);
        page += rest;
    }
    page
}

/// Why a run was refused, folded.
pub fn refusal(words: &str) -> String {
    let (title, words) = ("Why, and where in the text", escaped(words));
    format!(
        "<details id=\"why\"><summary>{title}</summary><pre id=\"refusal\">{words}</pre></details>"
    )
}

/// The text of a graph, folded; it is escaped already.
pub fn source(text: &str) -> String {
    let start = "<details class=\"panel\">\n<summary>The graph as text</summary>";
    format!("{start}\n<pre id=\"text\" tabindex=\"0\">{text}</pre>\n</details>")
}

#[cfg(test)]
mod tests {
    use super::*;

    #[test]
    fn parts_are_not_searched() {
        let parts = [("a", "{{b}}".to_string()), ("b", "2".to_string())];
        assert_eq!(fill("<{{a}}, {{b}}>", &parts), "<{{b}}, 2>");
    }

    #[test]
    fn markup_is_text() {
        assert_eq!(escaped("a<b&\"c'>"), "a&lt;b&amp;&quot;c&#39;&gt;");
    }
}
