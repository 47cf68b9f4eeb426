//! A page as one file: its text, its style and its script.

use std::fmt::Write;

/// Text as it stands in a page, in an attribute too.
pub fn escaped(text: &str) -> String {
    let mut page = String::with_capacity(text.len());
    for letter in text.chars() {
        match letter {
            '&' => page.push_str("&amp;"),
            '<' => page.push_str("&lt;"),
            '>' => page.push_str("&gt;"),
            '"' => page.push_str("&quot;"),
            '\'' => page.push_str("&#39;"),
            other => page.push(other),
        }
    }
    page
}

/// Octets as pairs of digits, with this between them.
pub fn digits(octets: &[u8], between: &str) -> String {
    let pairs: Vec<String> = octets.iter().map(|octet| format!("{octet:02X}")).collect();
    pairs.join(between)
}

/// A number with a comma before each three digits.
pub fn grouped(number: u64) -> String {
    let plain = number.to_string();
    let mut shown = String::new();
    for (at, digit) in plain.chars().enumerate() {
        if at > 0 && (plain.len() - at) % 3 == 0 {
            shown.push(',');
        }
        shown.push(digit);
    }
    shown
}

/// A number of things, in words: "1 event", "2 events".
pub fn count(number: usize, thing: &str) -> String {
    let plural = if number == 1 { "" } else { "s" };
    format!("{} {thing}{plural}", grouped(number as u64))
}

/// What the signs of a picture mean: for each the class that draws it, and its words.
pub fn legend(signs: &[(&str, &str)]) -> String {
    let items = signs.iter().fold(String::new(), |mut items, (class, words)| {
        let _ = write!(items, "<span><i class=\"key {class}\"></i>{words}</span> ");
        items
    });
    format!("<p class=\"signs\">{items}</p>\n")
}

/// What a page is made of; title and body attributes are plain text.
pub struct Page<'a> {
    pub title: &'a str,
    /// Names and values of the body's data attributes, for whoever reads the page by a program.
    pub data: &'a [(&'a str, String)],
    /// Style that follows the one that all pages have.
    pub style: &'a str,
    pub body: &'a str,
    pub script: &'a str,
}

const STYLE: &str = include_str!("page.css");

impl Page<'_> {
    pub fn html(&self) -> String {
        let data = self.data.iter().fold(String::new(), |mut data, (name, value)| {
            let _ = write!(data, " data-{name}=\"{}\"", escaped(value));
            data
        });
        let title = escaped(self.title);
        let Page { style, body, script, .. } = self;
        format!(
            "<!DOCTYPE html>\n<html lang=\"en\">\n<head>\n<meta charset=\"utf-8\">\n\
             <meta name=\"viewport\" content=\"width=device-width, initial-scale=1\">\n\
             <meta name=\"color-scheme\" content=\"light dark\">\n<link rel=\"icon\" href=\"data:,\">\n\
             <title>{title}</title>\n<style>\n{STYLE}{style}</style>\n</head>\n<body{data}>\n{body}\
             <script>\n{script}</script>\n</body>\n</html>\n"
        )
    }
}

#[cfg(test)]
mod tests {
    use super::{count, digits, escaped, grouped};

    #[test]
    fn text_is_escaped() {
        assert_eq!(escaped("a<b & \"c\" 'd'>"), "a&lt;b &amp; &quot;c&quot; &#39;d&#39;&gt;");
    }

    #[test]
    fn numbers_are_readable() {
        assert_eq!(grouped(0), "0");
        assert_eq!(grouped(999), "999");
        assert_eq!(grouped(4_294_967_295), "4,294,967,295");
        assert_eq!(
            (count(1, "event"), count(2_000, "event")),
            ("1 event".into(), "2,000 events".into())
        );
        assert_eq!(digits(&[0, 0xAB], ":"), "00:AB");
    }
}
