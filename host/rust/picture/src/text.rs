//! The lines that vmbind prints.

use crate::mapping::Mapping;
use waylluqen_assemble::number::negative;
use waylluqen_assemble::quote::quoted;

#[derive(Clone, Copy, Debug, PartialEq)]
pub enum Kind {
    Map,
    Remap,
    Unmap,
}

#[derive(Clone, Copy, Debug, PartialEq)]
pub enum Side {
    Lower,
    Upper,
}

#[derive(Debug, PartialEq)]
pub enum Line {
    Space,
    /// The numbers of operations that follow, and of mappings behind them.
    Granted(u64, u64),
    /// With the new mapping or the old one, and whether it has the keep mark.
    Operation(Kind, Mapping, bool),
    /// What is left of a mapping that is remapped.
    Rest(Side, Mapping),
    /// What an address shows.
    Seen,
    Refused,
    /// The script is broken here, and vmbind stops.
    Stopped,
}

/// The longest line is a remap: its name, four numbers, `keep` and the mark.
const MOST_WORDS: usize = 7;

/// vmbind's numbers are decimal, without a sign.
fn number(word: &str) -> Result<u64, String> {
    let digits = word.bytes().all(|byte| byte.is_ascii_digit());
    let number = word.parse().ok().filter(|_| digits);
    let no_number = || format!("'{}' is not a number of 64 bits", quoted(word));
    number.ok_or_else(|| negative(word).unwrap_or_else(no_number))
}

fn keep(word: &str) -> Result<bool, String> {
    match word {
        "0" => Ok(false),
        "1" => Ok(true),
        _ => Err(format!("a keep mark is 0 or 1, not '{}'", quoted(word))),
    }
}

/// The line that these bytes are, or what is wrong with them.
pub fn line(bytes: &[u8]) -> Result<Line, String> {
    let no_line = || format!("'{}' is no line of vmbind", quoted(bytes));
    let text = std::str::from_utf8(bytes).map_err(|_| no_line())?;
    // One word too many tells as much as all words of an endless line, which need memory.
    let words: Vec<&str> = text.split(' ').take(MOST_WORDS + 1).collect();
    let mapping = |numbers: &[&str]| match numbers {
        [a, s, o, f] => Mapping::of([number(a)?, number(s)?, number(o)?, number(f)?]),
        _ => Err(no_line()),
    };
    let only_numbers = |words: &[&str], line| {
        words.iter().try_for_each(|word| number(word).map(|_| ()))?;
        Ok(line)
    };
    let cut = |kind, old, mark| Ok(Line::Operation(kind, mapping(old)?, keep(mark)?));
    match words[..] {
        ["space", room] => only_numbers(&[room], Line::Space),
        ["granted", operations, count] => Ok(Line::Granted(number(operations)?, number(count)?)),
        ["map", ref new @ ..] => Ok(Line::Operation(Kind::Map, mapping(new)?, false)),
        ["remap", ref old @ .., "keep", mark] => cut(Kind::Remap, old, mark),
        ["unmap", ref old @ .., "keep", mark] => cut(Kind::Unmap, old, mark),
        ["lower", ref rest @ ..] => Ok(Line::Rest(Side::Lower, mapping(rest)?)),
        ["upper", ref rest @ ..] => Ok(Line::Rest(Side::Upper, mapping(rest)?)),
        ["at", address, "none" | "sparse", bytes] => only_numbers(&[address, bytes], Line::Seen),
        ["at", address, object, offset, bytes] => {
            only_numbers(&[address, object, offset, bytes], Line::Seen)
        }
        ["refused", rule] => only_numbers(&[rule], Line::Refused),
        ["mark" | "cut", place] => only_numbers(&[place], Line::Stopped),
        _ => Err(no_line()),
    }
}

#[cfg(test)]
mod tests {
    use super::*;

    fn line(text: &str) -> Result<Line, String> {
        super::line(text.as_bytes())
    }

    #[test]
    fn every_kind_of_line() {
        let old = Mapping::of([4096, 8192, 7, 12288]).unwrap();
        let operation = |kind, keep| Ok(Line::Operation(kind, old, keep));
        let keep = "4096 8192 7 12288 keep";
        assert_eq!(line("space 256"), Ok(Line::Space));
        assert_eq!(line("granted 2 3"), Ok(Line::Granted(2, 3)));
        assert_eq!(line("map 4096 8192 7 12288"), operation(Kind::Map, false));
        assert_eq!(
            line(&format!("unmap {keep} 0")),
            operation(Kind::Unmap, false)
        );
        assert_eq!(
            line(&format!("remap {keep} 1")),
            operation(Kind::Remap, true)
        );
        assert_eq!(
            line("lower 4096 8192 7 12288"),
            Ok(Line::Rest(Side::Lower, old))
        );
        assert_eq!(
            line("upper 4096 8192 7 12288"),
            Ok(Line::Rest(Side::Upper, old))
        );
        for text in [
            "at 8200 7 8200 4088",
            "at 0 none 4096",
            "at 18446744073709551615 none 0",
            "at 8192 sparse 4096",
        ] {
            assert_eq!(line(text), Ok(Line::Seen));
        }
        assert_eq!(line("refused 20"), Ok(Line::Refused));
        for text in ["mark 110", "cut 0"] {
            assert_eq!(line(text), Ok(Line::Stopped));
        }
    }

    #[test]
    fn other_lines_are_told() {
        for text in [
            "",
            "map",
            "Map 0 4096 7 0",
            "map 0 4096 7",
            "map 0 4096 7 0 ",
            "unmap 0 4096 7 0",
            "unmap 0 4096 7 0 keep 0 1",
            "remap 0 4096 7 0 keep",
            "remap 0 4096 7 0 0 keep 0",
            "at 0",
            "at 0 none",
            "at 0 sparse",
            "at 0 Sparse 4096",
            "at 8200 7 8200",
            "at 8200 7 8200 4088 ",
            "space",
            "host/test: passed",
        ] {
            assert_eq!(line(text), Err(format!("'{text}' is no line of vmbind")));
        }
    }

    #[test]
    fn other_numbers_are_told() {
        for (text, word) in [
            ("map 0x0 4096 7 0", "0x0"),
            ("at +1 none 0", "+1"),
            ("at 0 none ", ""),
            ("at 0 7 0 -", "-"),
            ("at 0 none 4096 1", "none"),
            ("at 0 sparse 4096 1", "sparse"),
            ("refused ", ""),
            ("granted 1 18446744073709551616", "18446744073709551616"),
        ] {
            assert_eq!(
                line(text),
                Err(format!("'{word}' is not a number of 64 bits"))
            );
        }
        for text in ["at -1 none 0", "at 0 none -1"] {
            assert_eq!(line(text), Err("'-1' is negative".to_string()));
        }
        let told = "a keep mark is 0 or 1, not '2'".to_string();
        assert_eq!(line("unmap 0 4096 7 0 keep 2"), Err(told));
        assert_eq!(line("map 0 4096 0 0"), Err("0 is no object".to_string()));
    }

    #[test]
    fn what_is_told_is_quoted() {
        let (long, shown) = ("x".repeat(1 << 20), "x".repeat(37) + "...");
        for (word, shown) in [("\x1b[2J", r"\x1b[2J"), (&long, &shown)] {
            let no_line = format!("'{shown}' is no line of vmbind");
            assert_eq!(line(word), Err(no_line));
            let no_number = format!("'{shown}' is not a number of 64 bits");
            assert_eq!(line(&format!("refused {word}")), Err(no_number));
            let no_mark = format!("a keep mark is 0 or 1, not '{shown}'");
            let text = format!("unmap 0 4096 7 0 keep {word}");
            assert_eq!(line(&text), Err(no_mark));
        }
        let no_text = super::line(b"space \xff256");
        let told = r"'space \xff256' is no line of vmbind".to_string();
        assert_eq!(no_text, Err(told));
        let told = r"'map\u{a0}0 4096 7 0\r' is no line of vmbind".to_string();
        assert_eq!(line("map\u{a0}0 4096 7 0\r"), Err(told));
    }
}
