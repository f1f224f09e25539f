//! Texts and names as a terminal may be given them: nothing in them can move the cursor, change
//! colours or hide.

/// A character in its own place: a control character as its picture (`␛` for escape), anything else
/// that prints nothing by itself (a byte order mark, a no-break space, a change of direction) as
/// `�`.
pub fn visible(c: char) -> char {
    match c {
        '\0'..='\x1f' => {
            char::from_u32('␀' as u32 + c as u32).unwrap_or(char::REPLACEMENT_CHARACTER)
        }
        '\x7f' => '␡',
        // they print, and asking takes long
        ' '..='~' => c,
        _ if prints(c) => c,
        _ => char::REPLACEMENT_CHARACTER,
    }
}

/// Whether Rust's `{:?}` would leave the character as it is; after a letter, since marks that join
/// one are left there.
fn prints(c: char) -> bool {
    ['a', c].iter().collect::<String>().escape_debug().count() == 2
}

/// The characters of some bytes. A byte that belongs to none is `�`.
pub fn characters(bytes: &[u8]) -> Vec<char> {
    let mut found = Vec::new();
    let mut rest = bytes;
    loop {
        match std::str::from_utf8(rest) {
            Ok(good) => {
                found.extend(good.chars());
                return found;
            }
            Err(bad) => {
                let (good, from) = rest.split_at(bad.valid_up_to());
                found.extend(String::from_utf8_lossy(good).chars());
                found.push(char::REPLACEMENT_CHARACTER);
                rest = &from[1..];
            }
        }
    }
}

/// Some bytes on a line, at most so many characters of them.
pub fn line(bytes: &[u8], most: usize) -> String {
    let found = characters(bytes);
    let cut = found.len() > most;
    let shown = found.iter().take(if cut { most - 1 } else { most });
    shown.map(|&c| visible(c)).chain(cut.then_some('…')).collect()
}

#[cfg(test)]
mod tests {
    use super::*;

    #[test]
    fn what_a_terminal_would_obey_is_shown() {
        let shown: String = "\0\t\n\r\x1b[31m\x7f\u{85}\u{9b}".chars().map(visible).collect();
        assert_eq!(shown, "␀␉␊␍␛[31m␡��");
        let shown: String =
            "\u{feff}\u{a0}\u{200b}\u{202e}\u{2066}\u{e000}\u{2028}".chars().map(visible).collect();
        assert_eq!(shown, "�������");
    }

    #[test]
    fn what_prints_is_left() {
        let text = "a\"'\\ e\u{301}Öl 糖 ग\u{94d}ड …";
        assert_eq!(text.chars().map(visible).collect::<String>(), text);
    }

    #[test]
    fn a_byte_of_no_character_is_one_character() {
        assert_eq!(
            characters(b"a\xffb\xe2\x82c\xe2\x82\xac\xf0\x9f"),
            "a�b��c€��".chars().collect::<Vec<_>>()
        );
    }

    #[test]
    fn long_lines_are_cut() {
        assert_eq!(line(b"abcdef", 6), "abcdef");
        assert_eq!(line(b"abcdefg", 6), "abcde…");
    }
}
