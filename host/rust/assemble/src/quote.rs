//! What a message quotes: on one line, short, and without what a terminal would act on.

use std::ffi::OsStr;
use std::os::unix::ffi::OsStrExt;

/// The most characters of a word or a line.
const MOST: usize = 40;
/// A user needs more of a file's name, to find the file.
const MOST_OF_NAME: usize = 200;

const DOTS: &str = "...";

/// Whether a terminal shows something else than the character: it acts on it, turns the direction
/// of what follows, or shows nothing or a blank.
fn is_hidden(c: char) -> bool {
    let formats = matches!(c,
        '\u{ad}' | '\u{61c}' | '\u{180e}' | '\u{200b}'..='\u{200f}' | '\u{2028}'..='\u{202e}'
        | '\u{2060}'..='\u{206f}' | '\u{feff}' | '\u{fff9}'..='\u{fffb}'
        | '\u{e0000}'..='\u{e007f}');
    formats || c.is_control() || (c.is_whitespace() && c != ' ')
}

/// A character, or its escape. A backslash is doubled: what looks like an escape is one then, and
/// not the text of one.
fn shown(c: char) -> String {
    match c {
        '\\' => r"\\".to_string(),
        '\t' => r"\t".to_string(),
        '\n' => r"\n".to_string(),
        '\r' => r"\r".to_string(),
        _ if !is_hidden(c) => c.to_string(),
        _ if c.is_ascii() => byte(&(c as u8)),
        _ => c.escape_unicode().to_string(),
    }
}

/// Two digits from 80 on stand for a byte that is no text; a character would have braces.
fn byte(byte: &u8) -> String {
    format!("\\x{byte:02x}")
}

/// Text that fits is whole. Else dots follow on as many characters and escapes as fit with them.
fn shortened(text: &[u8], most: usize) -> String {
    let parts = text.utf8_chunks().flat_map(|chunk| {
        let text = chunk.valid().chars().map(shown);
        text.chain(chunk.invalid().iter().map(byte))
    });
    let (mut out, mut length, mut cut) = (String::new(), 0, 0);
    for part in parts {
        length += part.chars().count();
        if length > most {
            out.truncate(cut);
            return out + DOTS;
        }
        out += &part;
        if length + DOTS.len() <= most {
            cut = out.len();
        }
    }
    out
}

/// What a message shows of a word, a line or a number of the input.
pub fn quoted(text: impl AsRef<[u8]>) -> String {
    shortened(text.as_ref(), MOST)
}

/// What a message shows of a file's name, or of arguments, which mostly are such names.
pub fn named(name: &OsStr) -> String {
    shortened(name.as_bytes(), MOST_OF_NAME)
}

#[cfg(test)]
mod tests {
    use super::*;

    #[test]
    fn what_can_be_read_stays() {
        for text in ["", "0x1_0000", "it's \"so\"", "é, ß, 数, 🦀", "e\u{301}"] {
            assert_eq!(quoted(text), text);
        }
    }

    #[test]
    fn what_a_terminal_acts_on_is_escaped() {
        for (text, shown) in [
            ("\x1b[31mred", r"\x1b[31mred"),
            ("\0\x07\x08\x7f", r"\x00\x07\x08\x7f"),
            ("a\tb\r\n", r"a\tb\r\n"),
            ("\u{80}\u{9b}31m", r"\u{80}\u{9b}31m"),
            ("\u{202e}cod.exe", r"\u{202e}cod.exe"),
            ("a\u{2028}b\u{2029}", r"a\u{2028}b\u{2029}"),
        ] {
            assert_eq!(quoted(text), shown);
        }
    }

    #[test]
    fn no_hidden_character_is_left() {
        let others = [
            '\u{ad}', '\u{61c}', '\u{180e}', '\u{feff}', '\u{a0}', '\u{3000}',
        ];
        let ranges = ('\u{200b}'..='\u{200f}').chain('\u{2028}'..='\u{202e}');
        let ranges = ranges
            .chain('\u{2060}'..='\u{206f}')
            .chain('\u{fff9}'..='\u{fffb}');
        let ranges = ranges.chain('\u{e0000}'..='\u{e007f}');
        for c in ranges.chain(others) {
            assert_eq!(quoted(c.to_string()), format!("\\u{{{:x}}}", u32::from(c)));
        }
        let controls = ('\0'..='\u{9f}').filter(|c| c.is_control());
        for c in controls {
            assert!(quoted(c.to_string()).starts_with('\\'), "{c:?}");
        }
    }

    #[test]
    fn an_escape_is_no_text_that_looks_like_one() {
        assert_eq!(quoted(r"\x1b"), r"\\x1b");
        assert_eq!(quoted(b"\xff"), r"\xff");
        assert_eq!(quoted("\u{ff}\u{85}"), r"ÿ\u{85}");
        assert_eq!(quoted(b"a\xc3\xa9\xed\xa0\x80z"), r"aé\xed\xa0\x80z");
        assert_eq!(quoted(b"\xc3"), r"\xc3");
    }

    #[test]
    fn long_text_is_shortened() {
        let text = |length| "é".repeat(length);
        assert_eq!(quoted(text(40)), text(40));
        assert_eq!(quoted(text(41)), text(37) + "...");
        assert_eq!(quoted(vec![b'1'; 1 << 20]), "1".repeat(37) + "...");
        let name = |length| named(OsStr::new(&"n".repeat(length)));
        assert_eq!(name(200), "n".repeat(200));
        assert_eq!(name(201), "n".repeat(197) + "...");
    }

    #[test]
    fn an_escape_is_shown_whole_or_not_at_all() {
        assert_eq!(quoted([0xff; 10]), r"\xff".repeat(10));
        assert_eq!(quoted([0xff; 11]), r"\xff".repeat(9) + "...");
        assert_eq!(quoted("\u{202e}".repeat(6)), r"\u{202e}".repeat(4) + "...");
        for length in 0..=40 {
            let text = "a".repeat(length) + &r"\".repeat(40);
            let shown = quoted(text);
            let slashes = shown.trim_start_matches('a').trim_end_matches('.');
            assert_eq!(slashes.len() % 2, 0, "{shown}");
            assert!((39..=40).contains(&shown.len()), "{shown}");
        }
    }
}
