//! Texts in an SVG file.

/// A line of text, whose start, middle or end is at x.
pub fn label(x: f64, y: f64, anchor: &str, colour: &str, text: &str) -> String {
    let text = escaped(text);
    format!("<text x=\"{x:.1}\" y=\"{y:.1}\" text-anchor=\"{anchor}\" fill=\"{colour}\">{text}</text>\n")
}

/// About half the width of a label of digits, with some room beside it.
pub fn half_width(text: &str) -> f64 {
    3.6 * text.len() as f64 + 4.0
}

/// A text that takes at most this many letters of room: what is left out is in its middle. Letters that are not ASCII
/// may be wide, and count twice.
pub fn shortened(text: &str, room: usize) -> String {
    let width = |letter: char| if letter.is_ascii() { 1 } else { 2 };
    if text.chars().map(width).sum::<usize>() <= room {
        return text.to_string();
    }
    let half = room.saturating_sub(2) / 2;
    let fitting = |letters: &mut dyn Iterator<Item = char>| -> Vec<char> {
        let mut used = 0;
        letters
            .take_while(|&letter| {
                used += width(letter);
                used <= half
            })
            .collect()
    };
    let start: String = fitting(&mut text.chars()).into_iter().collect();
    let end: String = fitting(&mut text.chars().rev()).into_iter().rev().collect();
    format!("{start}…{end}")
}

/// A text as XML takes it: its marks written as entities, letters that XML does not have replaced.
pub fn escaped(text: &str) -> String {
    let mut escaped = String::with_capacity(text.len());
    for letter in text.chars() {
        match letter {
            '&' => escaped.push_str("&amp;"),
            '<' => escaped.push_str("&lt;"),
            '>' => escaped.push_str("&gt;"),
            '"' => escaped.push_str("&quot;"),
            '\u{fffe}' | '\u{ffff}' => escaped.push('\u{fffd}'),
            control if control.is_control() => escaped.push('\u{fffd}'),
            other => escaped.push(other),
        }
    }
    escaped
}

#[cfg(test)]
mod tests {
    use super::*;

    #[test]
    fn marks_and_letters_that_xml_does_not_have() {
        assert_eq!(escaped("<a & \"b\">"), "&lt;a &amp; &quot;b&quot;&gt;");
        assert_eq!(escaped("é漢\u{0}\u{1b}\n\u{85}\u{ffff}"), "é漢\u{fffd}\u{fffd}\u{fffd}\u{fffd}\u{fffd}");
        let text = "<text x=\"1.0\" y=\"2.3\" text-anchor=\"end\" fill=\"#000000\">&lt;</text>\n";
        assert_eq!(label(1.0, 2.34, "end", "#000000", "<"), text);
    }

    #[test]
    fn long_texts_lose_their_middle() {
        assert_eq!(shortened("abcdefghij", 10), "abcdefghij");
        assert_eq!(shortened("abcdefghijk", 10), "abcd…hijk");
        assert_eq!(shortened("abcdé", 5), "a…");
        assert_eq!(shortened("ab", 0), "…");
        assert_eq!(shortened(&"漢".repeat(1000), 10), "漢漢…漢漢");
    }
}
