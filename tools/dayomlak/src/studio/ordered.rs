//! A text with an order in it, in the place of the picks or the order that it had.

/// Lines of an order are no longer than this, unless a name alone is.
const WIDTH: usize = 100;

/// The text, which has no error, with the order of these activities, or with none.
pub fn with_order(text: &str, names: &[String]) -> String {
    let lines: Vec<&str> = text.split_inclusive('\n').collect();
    let place = lines.iter().position(|line| is_order(line));
    let place = place.unwrap_or(lines.len());
    let rest = lines[place..].iter().filter(|line| !is_order(line));
    let mut text = lines[..place].concat();
    if !text.is_empty() && !text.ends_with('\n') && !names.is_empty() {
        text.push('\n');
    }
    text += &order(names);
    text.extend(rest.copied());
    text
}

/// Whether a line has picks or an order. An instruction may be called `order`.
fn is_order(line: &str) -> bool {
    let line = line.trim_start_matches('\u{feff}').trim_start();
    let rest = line
        .strip_prefix("picks")
        .or_else(|| line.strip_prefix("order"));
    rest.is_some_and(|rest| {
        let is_word = rest.starts_with(char::is_whitespace) || rest.is_empty();
        is_word && !rest.trim_start().starts_with(':')
    })
}

/// The lines of an order.
fn order(names: &[String]) -> String {
    let mut lines: Vec<String> = Vec::new();
    for name in names {
        match lines.last_mut() {
            Some(line) if line.len() + 1 + name.len() <= WIDTH => *line += &format!(" {name}"),
            _ => lines.push(format!("order {name}")),
        }
    }
    lines.into_iter().map(|line| line + "\n").collect()
}

#[cfg(test)]
mod tests {
    use super::*;

    fn names(words: &str) -> Vec<String> {
        words.split(' ').map(str::to_string).collect()
    }

    #[test]
    fn in_the_place_of_another() {
        let one = names("a[0] b[0]");
        assert_eq!(with_order("", &one), "order a[0] b[0]\n");
        assert_eq!(with_order("a: SINK", &one), "a: SINK\norder a[0] b[0]\n");
        let text =
            "x\npicks 0 1\ny\norder z[0]\n order q[0] # why\norder: COPY -> a\norder : SINK\n";
        let kept = "x\norder a[0] b[0]\ny\norder: COPY -> a\norder : SINK\n";
        assert_eq!(with_order(text, &one), kept);
        assert_eq!(with_order(kept, &one), kept);
        assert_eq!(with_order("x\npicks 1", &[]), "x\n");
        assert_eq!(with_order("x", &[]), "x");
    }

    #[test]
    fn long_orders_have_several_lines() {
        let many: Vec<String> = (0..40).map(|n| format!("name{n}[0]")).collect();
        let text = with_order("", &many);
        assert!(text
            .lines()
            .all(|line| line.len() <= WIDTH && line.starts_with("order ")));
        let back: Vec<&str> = text
            .split_whitespace()
            .filter(|word| *word != "order")
            .collect();
        assert_eq!(back, many);
        let long = "x".repeat(200);
        assert_eq!(
            with_order("", std::slice::from_ref(&long)),
            format!("order {long}\n")
        );
    }
}
