//! Numbers as a routine file spells them: decimal, no leading zero, no `+`, no `-0`.

/// The number that a word spells.
pub fn number(word: &str) -> Option<i64> {
    let digits = word.strip_prefix('-').unwrap_or(word);
    let spelt = !digits.is_empty()
        && digits.bytes().all(|byte| byte.is_ascii_digit())
        && (digits == "0" || !digits.starts_with('0'))
        && word != "-0";
    if spelt {
        word.parse().ok()
    } else {
        None
    }
}

#[cfg(test)]
mod tests {
    use super::number;

    #[test]
    fn spelling() {
        assert_eq!(number("0"), Some(0));
        assert_eq!(number("-12"), Some(-12));
        assert_eq!(number("4000000000"), Some(4_000_000_000));
        for word in ["", "-", "-0", "+1", "01", "00", "1.", "0x1", "_", "1_000", "99999999999999999999"] {
            assert_eq!(number(word), None, "{word}");
        }
    }
}
