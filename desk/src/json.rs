//! Objects in JSON, one to a line.

/// An object with its members in the order in which they are put.
#[derive(Default)]
pub struct Object {
    members: Vec<String>,
}

/// A text with its quotes; what JSON does not take as it stands is escaped.
fn quoted(text: &str) -> String {
    let mut out = String::from("\"");
    for c in text.chars() {
        match c {
            '"' => out.push_str("\\\""),
            '\\' => out.push_str("\\\\"),
            c if c.is_control() => out.push_str(&format!("\\u{:04x}", c as u32)),
            c => out.push(c),
        }
    }
    out.push('"');
    out
}

impl Object {
    fn put(&mut self, name: &str, value: String) {
        self.members.push(format!("{}:{value}", quoted(name)));
    }

    pub fn text(&mut self, name: &str, text: &str) {
        self.put(name, quoted(text));
    }

    /// A member that is there only where it has a text.
    pub fn optional(&mut self, name: &str, text: Option<&str>) {
        if let Some(text) = text {
            self.text(name, text);
        }
    }

    pub fn number(&mut self, name: &str, number: u64) {
        self.put(name, number.to_string());
    }

    pub fn truth(&mut self, name: &str, truth: bool) {
        self.put(name, truth.to_string());
    }

    pub fn texts(&mut self, name: &str, texts: &[String]) {
        let texts: Vec<String> = texts.iter().map(|text| quoted(text)).collect();
        self.put(name, format!("[{}]", texts.join(",")));
    }

    pub fn line(&self) -> String {
        format!("{{{}}}\n", self.members.join(","))
    }
}

#[cfg(test)]
mod tests {
    use super::*;

    #[test]
    fn an_object() {
        let mut object = Object::default();
        object.text("file", "a \"b\" \\ <é>\n\u{7f}");
        object.optional("none", None);
        object.optional("name", Some("x"));
        object.number("rule", 5);
        object.truth("reached", false);
        object.texts("words", &["a".to_string(), "b".to_string()]);
        let line = "{\"file\":\"a \\\"b\\\" \\\\ <é>\\u000a\\u007f\",\"name\":\"x\",\"rule\":5,\
                    \"reached\":false,\"words\":[\"a\",\"b\"]}\n";
        assert_eq!(object.line(), line);
        assert_eq!(Object::default().line(), "{}\n");
    }
}
