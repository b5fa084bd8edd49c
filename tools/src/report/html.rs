//! Text as HTML takes it.

/// The text without signs that HTML would read; what it cannot hold is replaced.
pub fn escape(text: &str) -> String {
    let mut escaped = String::new();
    for c in text.chars() {
        match c {
            '&' => escaped.push_str("&amp;"),
            '<' => escaped.push_str("&lt;"),
            '>' => escaped.push_str("&gt;"),
            '"' => escaped.push_str("&quot;"),
            '\n' | '\t' => escaped.push(c),
            c if c.is_control() => escaped.push('\u{fffd}'),
            c => escaped.push(c),
        }
    }
    escaped
}

/// A table with a head, and a header cell at the front of each row.
pub fn table(id: &str, caption: &str, head: &[&str], rows: &[Vec<String>]) -> String {
    let head: String = head.iter().map(|cell| format!("<th scope=\"col\">{cell}</th>")).collect();
    let row = |cells: &Vec<String>| {
        let first = cells.first().map_or(String::new(), |cell| escape(cell));
        let rest = cells.iter().skip(1).map(|cell| format!("<td>{}</td>", escape(cell)));
        format!("<tr><th scope=\"row\">{first}</th>{}</tr>\n", rest.collect::<String>())
    };
    let rows: String = rows.iter().map(row).collect();
    // Wide tables are moved with the arrow keys once they have the focus.
    format!(
        "<div class=\"wide\" tabindex=\"0\" role=\"region\" aria-labelledby=\"{id}\">\n<table>\n\
         <caption id=\"{id}\">{}</caption>\n<thead><tr>{head}</tr></thead>\n<tbody>\n{rows}</tbody>\n\
         </table>\n</div>\n",
        escape(caption)
    )
}

#[cfg(test)]
mod tests {
    use super::*;

    #[test]
    fn names_are_escaped() {
        assert_eq!(escape("a<b> & \"c\"\u{1}\n"), "a&lt;b&gt; &amp; &quot;c&quot;\u{fffd}\n");
        assert!(table("t", "<", &["a"], &[vec!["<b>".into()]]).contains("&lt;b&gt;</th>"));
    }
}
