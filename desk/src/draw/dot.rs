//! Pieces of Graphviz's language: escaped text, attribute lists.

/// Text inside an HTML-like label. Graphviz would replace `\G` and the like, so each backslash stands twice; and it would
/// turn away control characters and the two that XML has not.
pub fn escaped(text: &str) -> String {
    let mut out = String::new();
    for c in text.chars() {
        match c {
            '&' => out.push_str("&amp;"),
            '<' => out.push_str("&lt;"),
            '>' => out.push_str("&gt;"),
            '"' => out.push_str("&quot;"),
            '\\' => out.push_str("\\\\"),
            '\u{FFFE}' | '\u{FFFF}' => out.push('?'),
            c if c.is_control() => out.push('?'),
            c => out.push(c),
        }
    }
    out
}

/// `KEY=VALUE, KEY=VALUE`; values that are not HTML-like (`<...>`) are quoted.
pub fn attributes(pairs: &[(&str, &str)]) -> String {
    let mut words = Vec::new();
    for (key, value) in pairs {
        match value.starts_with('<') {
            true => words.push(format!("{key}={value}")),
            false => words.push(format!("{key}=\"{value}\"")),
        }
    }
    words.join(", ")
}

/// Puts pieces on lines of at most `width` characters; a longer piece has a line for itself.
pub fn filled<'a>(pieces: impl Iterator<Item = &'a str>, joint: &str, width: usize) -> Vec<String> {
    let mut lines: Vec<String> = Vec::new();
    for piece in pieces {
        match lines.last_mut() {
            Some(line) if (line.chars().count() + joint.len() + piece.chars().count()) <= width => {
                line.push_str(joint);
                line.push_str(piece);
            }
            _ => lines.push(piece.to_string()),
        }
    }
    lines
}

/// Words on lines of at most `width` characters, inside an HTML-like label.
pub fn escaped_lines(words: &str, width: usize) -> String {
    let lines = filled(words.split_whitespace(), " ", width);
    let lines: Vec<String> = lines.iter().map(|line| escaped(line)).collect();
    lines.join("<BR/>")
}

#[cfg(test)]
mod tests {
    use super::*;

    #[test]
    fn escaped_text() {
        assert_eq!(escaped("a<b> & \"c\" \\G\n"), "a&lt;b&gt; &amp; &quot;c&quot; \\\\G?");
        assert_eq!(escaped("a\tb\u{FFFE}c\u{FFFF}\u{85}d é 😀"), "a?b?c??d é 😀");
    }

    #[test]
    fn attribute_lists() {
        assert_eq!(attributes(&[("a", "1 2"), ("label", "<<B>x</B>>")]), "a=\"1 2\", label=<<B>x</B>>");
    }

    #[test]
    fn filled_lines() {
        assert_eq!(filled("aa bb cccccc d".split(' '), " ", 5), ["aa bb", "cccccc", "d"]);
        assert_eq!(filled(["?1", "!2", "τ3"].into_iter(), ", ", 6), ["?1, !2", "τ3"]);
        assert_eq!(filled("".split_whitespace(), " ", 5), [""; 0]);
    }

    /// A line's width is that of the text, not that of its escapes.
    #[test]
    fn lines_of_escaped_words() {
        assert_eq!(escaped_lines("<a> &b  c", 6), "&lt;a&gt; &amp;b<BR/>c");
    }
}
