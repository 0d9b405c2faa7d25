//! Text inside HTML, and a JSON value inside a script element.

use crate::json::Json;

/// A text as HTML has it: none of its letters is read as an element, an attribute's end or an entity.
pub fn escaped(text: impl ToString) -> String {
    let mut out = String::new();
    for letter in text.to_string().chars() {
        match letter {
            '&' => out += "&amp;",
            '<' => out += "&lt;",
            '>' => out += "&gt;",
            '"' => out += "&quot;",
            '\'' => out += "&#39;",
            letter => out.push(letter),
        }
    }
    out
}

/// A value for `<script type="application/json">`, where only `<` could end the element.
pub fn data(value: &Json) -> String {
    value.to_string().replace('<', "\\u003c")
}

/// `1 packet`, `2 packets`.
pub fn counted(count: u64, what: &str) -> String {
    format!("{count} {what}{}", if count == 1 { "" } else { "s" })
}

#[cfg(test)]
mod tests {
    use super::*;

    #[test]
    fn names_are_text() {
        let name = "<b> & \"it's\"</script>";
        assert_eq!(escaped(name), "&lt;b&gt; &amp; &quot;it&#39;s&quot;&lt;/script&gt;");
        assert_eq!(data(&Json::text(name)), r#""\u003cb> & \"it's\"\u003c/script>""#);
    }
}
