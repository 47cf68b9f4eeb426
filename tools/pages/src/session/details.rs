//! What a row of the chart has on demand: the fields of a frame and its octets.

use crate::frames::{self, Row};
use crate::html::{count, escaped};
use std::fmt::Write;

/// The octets of a line.
const LINE: usize = 16;
/// The pixels of a group in the picture of a frame's values, and its height.
const GROUP: usize = 5;
const HEIGHT: usize = 60;

/// Octets in lines, with the place of each line's first one; those of a key are not shown, and those
/// that are marked stand out.
pub fn octets(octets: &[u8], key: &[u8; 16], marked: &[bool]) -> String {
    let secret = frames::secret(octets, key);
    let mut lines = String::from("<pre class=\"octets\">");
    for (at, octet) in octets.iter().enumerate() {
        match at % LINE {
            0 => {
                let _ = write!(lines, "{}<i>{at:>5}</i> ", if at == 0 { "" } else { "\n" });
            }
            8 => lines.push(' '),
            _ => {}
        }
        let shown = if secret[at] { "··".into() } else { format!("{octet:02X}") };
        let is_marked = marked.get(at).copied().unwrap_or(false);
        let _ = if is_marked {
            write!(lines, " <mark>{shown}</mark>")
        } else {
            write!(lines, " {shown}")
        };
    }
    lines.push_str("</pre>");
    lines
}

/// The values of the carrier groups as bars; nothing where the frame has none.
pub fn bars(frame: &[u8]) -> String {
    let values = frames::groups(frame);
    if values.is_empty() {
        return String::new();
    }
    let (lowest, highest) = (values.iter().min().unwrap_or(&0), values.iter().max().unwrap_or(&0));
    let most = usize::from(*highest).max(HEIGHT);
    let (width, below) = (GROUP * values.len(), HEIGHT + 1);
    let path = values.iter().enumerate().fold(String::new(), |mut path, (group, value)| {
        let height = (usize::from(*value) * HEIGHT / most).max(1);
        let _ = write!(path, "M{} {below}v-{height}h{}v{height}z", GROUP * group, GROUP - 1);
        path
    });
    format!(
        "<figure class=\"bars\"><svg width=\"{width}\" height=\"{below}\" role=\"img\" \
         aria-label=\"values of the carrier groups\"><path d=\"{path}\"/></svg>\
         <figcaption>{}, {lowest} to {highest} dB</figcaption></figure>",
        count(values.len(), "group")
    )
}

fn row(row: &Row) -> String {
    let Row { name, octets, value } = row;
    let place = match octets.len() {
        0 => "-".into(),
        1 => octets.start.to_string(),
        _ => format!("{}-{}", octets.start, octets.end - 1),
    };
    format!("<tr><th>{name}</th><td>{place}</td><td>{}</td></tr>", escaped(value))
}

/// A frame with its fields and its octets.
pub fn frame(title: &str, frame: &[u8], key: &[u8; 16]) -> String {
    let rows: String = frames::rows(frame).iter().map(row).collect();
    format!(
        "<section class=\"shown\"><h3>{} <small>{}</small></h3><div class=\"sides\"><table \
         class=\"fields\"><thead><tr><th>Field</th><th>Octets</th><th>Value</th></tr></thead>\
         <tbody>{rows}</tbody></table><div>{}{}</div></div></section>",
        escaped(title),
        count(frame.len(), "octet"),
        bars(frame),
        octets(frame, key, &[])
    )
}

#[cfg(test)]
mod tests {
    use super::octets;

    #[test]
    fn octets_stand_in_lines_and_a_key_does_not() {
        let key = [7; 16];
        let shown = octets(&[1, 2], &key, &[false, true]);
        assert_eq!(shown, "<pre class=\"octets\"><i>    0</i>  01 <mark>02</mark></pre>");
        let shown = octets(&[&[1][..], &key].concat(), &key, &[]);
        assert!(!shown.contains("07") && shown.matches("··").count() == 16);
    }
}
