//! The numbers of a text: wider than any field, so that a message can tell one that does not fit.

use crate::quote::quoted;

/// The digits of a number, and their base.
fn digits_of(word: &str) -> (&str, u32) {
    match word.strip_prefix("0x") {
        Some(digits) => (digits, 16),
        None => (word, 10),
    }
}

fn is_number(word: &str) -> bool {
    let (digits, base) = digits_of(word);
    // An underscore at an end, or beside another one, leaves a part without digits.
    digits
        .split('_')
        .all(|part| !part.is_empty() && part.chars().all(|digit| digit.is_digit(base)))
}

/// Whether `word` has the form of a number, be it one that no place takes.
pub fn is_meant(word: &str) -> bool {
    is_number(word.strip_prefix('-').unwrap_or(word))
}

/// What is wrong with a number below zero, if `word` is one.
pub fn negative(word: &str) -> Option<String> {
    (is_meant(word) && !is_number(word)).then(|| format!("'{}' is negative", quoted(word)))
}

/// `FIRST+STEP*i` as its two numbers; the first may be left out.
fn counting(word: &str) -> Option<(&str, &str)> {
    let counting = word.strip_suffix("*i")?;
    let (first, step) = counting.split_once('+').unwrap_or(("0", counting));
    (is_meant(first) && is_meant(step)).then_some((first, step))
}

fn too_large(word: &str) -> String {
    format!("{} is too large", quoted(word))
}

/// The number that `word` is, or what is wrong with it.
pub fn parse(word: &str) -> Result<u128, String> {
    if !is_number(word) {
        let no_number = || format!("'{}' is not a number", quoted(word));
        return Err(negative(word).unwrap_or_else(no_number));
    }
    let (digits, base) = digits_of(word);
    // Underscores are no digits, and add nothing.
    let mut digits = digits.chars().filter_map(|digit| digit.to_digit(base));
    let value = digits.try_fold(0_u128, |value, digit| {
        value.checked_mul(base.into())?.checked_add(digit.into())
    });
    value.ok_or_else(|| too_large(word))
}

/// As `parse`, but in a repeated line, where a number may go by the turn.
pub fn parse_at(word: &str, turn: u64) -> Result<u128, String> {
    let Some((first, step)) = counting(word) else {
        return parse(word);
    };
    let (first, step) = (parse(first)?, parse(step)?);
    let moved = step.checked_mul(turn.into());
    let sum = moved.and_then(|moved| moved.checked_add(first));
    sum.ok_or_else(|| too_large(word))
}

#[cfg(test)]
mod tests {
    use super::*;

    #[test]
    fn decimal_and_hexadecimal() {
        assert_eq!(parse("0"), Ok(0));
        assert_eq!(parse("007"), Ok(7));
        assert_eq!(parse("4_096"), Ok(4096));
        assert_eq!(parse("0xaB_cD"), Ok(0xabcd));
        assert_eq!(parse("18446744073709551615"), Ok(u64::MAX.into()));
        assert_eq!(parse("0x1_0000_0000_0000_0000"), Ok(1 << 64));
    }

    #[test]
    fn words_that_are_no_numbers() {
        for word in [
            "",
            "_",
            "_1",
            "1_",
            "1__2",
            "0x",
            "0x_1",
            "0x1_",
            "0_x1",
            "0X1",
            "1a",
            "+1",
            "1*i",
            "0xg",
            "1.0",
            "\u{661}",
            "-",
            "--1",
            "-x",
            "-_1",
            "1-",
            "0x-1",
            "\u{2212}1",
        ] {
            assert_eq!(parse(word), Err(format!("'{word}' is not a number")));
        }
    }

    #[test]
    fn negative_numbers_are_told_as_such() {
        let told = |word| Err(format!("'{word}' is negative"));
        for word in ["-1", "-0x10", "-4_096", "-99999999999999999999"] {
            assert_eq!(parse(word), told(word));
            assert_eq!(parse_at(word, 3), told(word));
            assert!(is_meant(word) && negative(word).is_some());
        }
        for word in ["-5*i", "7+-5*i", "-5+7*i", "-5+-7*i"] {
            assert_eq!(parse_at(word, 3), told("-5"));
        }
        assert!(is_meant("1") && negative("1").is_none());
        assert!(!is_meant("x") && !is_meant("--1") && negative("x").is_none());
    }

    #[test]
    fn words_are_quoted() {
        let esc = parse("\x1b[31m1").unwrap_err();
        assert_eq!(esc, r"'\x1b[31m1' is not a number");
        let (nines, shown) = ("9".repeat(4096), "9".repeat(37));
        assert_eq!(parse(&nines), Err(format!("{shown}... is too large")));
        let below = parse(&format!("-{nines}")).unwrap_err();
        assert_eq!(below, format!("'-{}...' is negative", "9".repeat(36)));
        assert_eq!(parse(&("0".repeat(4096) + "7")), Ok(7));
    }

    #[test]
    fn numbers_that_go_by_the_turn() {
        assert_eq!(parse_at("5*i", 3), Ok(15));
        assert_eq!(parse_at("0x10+0x5*i", 3), Ok(31));
        assert_eq!(parse_at("7", 3), Ok(7));
        for word in [
            "*i", "+1*i", "1+*i", "1+2", "1+2+3*i", "1*i+2", "1*j", "1**i", "i",
        ] {
            assert_eq!(parse_at(word, 3), Err(format!("'{word}' is not a number")));
        }
    }

    #[test]
    fn numbers_above_128_bits() {
        let most = u128::MAX;
        assert_eq!(parse(&most.to_string()), Ok(most));
        assert_eq!(parse(&format!("{most:#x}")), Ok(most));
        for word in [format!("{most}0"), format!("0x1{}", "0".repeat(32))] {
            assert_eq!(parse(&word), Err(format!("{word} is too large")));
        }
        for word in [format!("{most}*i"), format!("{most}+1*i")] {
            let told = format!("{} is too large", quoted(&word));
            assert_eq!(parse_at(&word, 2), Err(told));
        }
    }
}
