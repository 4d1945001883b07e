//! Whether a file is text: UTF-8, GB18030 (which GBK is a part of), or UTF-16 with its mark.
//!
//! Every interval file of either form and every correction has two bytes 0 in its head, where the day's upper half stands, so none of
//! them is text, nor is one in which one byte was changed, lost or added.

/// A text is longer than the shorter head of an interval file.
const SHORT: usize = 15;

const LEADS: std::ops::RangeInclusive<u8> = 0x81..=0xfe;

/// Whether the bytes are text. A letter may be cut at their end only where the file goes on.
pub fn is_text(bytes: &[u8], goes_on: bool) -> bool {
    let plain =
        || bytes.iter().all(|&byte| is_plain(byte.into())) && (is_utf8(bytes, goes_on) || is_gb18030(bytes, goes_on));
    bytes.len() > SHORT && (is_utf16(bytes, goes_on) || plain())
}

/// No control character but tab, line feed, form feed and carriage return.
fn is_plain(unit: u16) -> bool {
    unit >= 0x20 && unit != 0x7f || [0x09, 0x0a, 0x0c, 0x0d].contains(&unit)
}

fn is_utf8(bytes: &[u8], goes_on: bool) -> bool {
    // No length of the error: the bytes end within a letter.
    str::from_utf8(bytes).is_ok() || goes_on && str::from_utf8(bytes).is_err_and(|error| error.error_len().is_none())
}

/// By its structure: letters of one, two and four bytes, whether or not they are given away.
fn is_gb18030(mut bytes: &[u8], goes_on: bool) -> bool {
    loop {
        bytes = match bytes {
            [] => return true,
            [0..0x80, rest @ ..] => rest,
            [lead, 0x40..=0x7e | 0x80..=0xfe, rest @ ..] if LEADS.contains(lead) => rest,
            [lead, b'0'..=b'9', third, b'0'..=b'9', rest @ ..] if LEADS.contains(lead) && LEADS.contains(third) => rest,
            [lead] | [lead, b'0'..=b'9'] => return goes_on && LEADS.contains(lead),
            [lead, b'0'..=b'9', third] => return goes_on && LEADS.contains(lead) && LEADS.contains(third),
            _ => return false,
        }
    }
}

fn is_utf16(bytes: &[u8], goes_on: bool) -> bool {
    let unit: fn([u8; 2]) -> u16 = match bytes {
        [0xff, 0xfe, ..] => u16::from_le_bytes,
        [0xfe, 0xff, ..] => u16::from_be_bytes,
        _ => return false,
    };
    let (pairs, rest) = bytes.as_chunks();
    let units = || pairs.iter().map(|&pair| unit(pair));
    // Half a letter of four bytes at the end, as long as the file goes on.
    let cut = goes_on && units().next_back().is_some_and(|last| (0xd800..0xdc00).contains(&last));
    let whole = units().take(pairs.len() - usize::from(cut));
    (rest.is_empty() || goes_on) && units().all(is_plain) && char::decode_utf16(whole).all(|letter| letter.is_ok())
}

#[cfg(test)]
mod tests {
    use super::is_text;

    fn utf16(text: &str, order: fn(u16) -> [u8; 2]) -> Vec<u8> {
        "\u{feff}".encode_utf16().chain(text.encode_utf16()).flat_map(order).collect()
    }

    fn whole(bytes: &[u8]) -> bool {
        is_text(bytes, false)
    }

    #[test]
    fn text_is_longer_than_a_head() {
        assert!(!whole(b""));
        assert!(!whole(b"fifteen letters"));
        assert!(whole(b"sixteen letters."));
        assert!(!whole(&utf16("sixteen", u16::to_le_bytes)[..14]));
        assert!(whole(&utf16("sixteen", u16::to_le_bytes)));
    }

    #[test]
    fn control_characters_are_no_text() {
        for byte in 0..=0xff {
            let text = [b"sixteen letters.".as_slice(), &[byte], b"and more"].concat();
            let plain = matches!(byte, b'\t' | b'\n' | 0x0c | b'\r' | 0x20..=0x7e);
            // A byte above 0x80 and the letter behind it are one letter of GB18030.
            assert_eq!(whole(&text), plain || (0x81..=0xfe).contains(&byte), "{byte:#x}");
            let wide = utf16(&format!("sixteen{}letters", char::from(byte)), u16::to_be_bytes);
            assert_eq!(whole(&wide), plain || byte >= 0x80, "{byte:#x}");
        }
    }

    #[test]
    fn utf8_may_begin_with_its_mark_and_end_within_a_letter_that_goes_on() {
        let text = "\u{feff}一号机, 二号机, 𠀀";
        assert!(whole(text.as_bytes()));
        for cut in 1..4 {
            let cut = &text.as_bytes()[..text.len() - cut];
            assert!(is_text(cut, true));
        }
        // What is no UTF-8 may be GB18030, unless it breaks that too.
        assert!(!whole(&"sixteen letters.é".as_bytes()[..17]));
        assert!(is_text(&"sixteen letters.é".as_bytes()[..17], true));
        assert!(!is_text(b"sixteen letters.\xff\xff", true));
        assert!(!is_text(b"sixteen letters.\x80 ", true));
    }

    #[test]
    fn gb18030_has_letters_of_two_and_four_bytes() {
        let start = b"1,sixteen bytes,";
        // 一号机, in two bytes each; the trail may look like a plain letter.
        let two = [start.as_slice(), b"\xd2\xbb\xba\xc5\xbb\xfa,\x81\x40\xfe\x7e\x81\x80\xfe\xfe"].concat();
        assert!(std::str::from_utf8(&two).is_err() && whole(&two));
        let four = [start.as_slice(), b"\x81\x30\x81\x30\xfe\x39\xfe\x39"].concat();
        assert!(whole(&four));
        let broken: [&[u8]; 10] = [
            b"\x80\x40",
            b"\xff\x40",
            b"\x81\x3f",
            b"\x81\x7f",
            b"\x81\xff",
            b"\x81\x20",
            b"\x81\x30\x80\x30",
            b"\x81\x30\xff\x30",
            b"\x81\x30\x81\x2f",
            b"\x81\x30\x81\x3a",
        ];
        for broken in broken {
            assert!(!is_text(&[start, broken].concat(), true), "{broken:x?}");
        }
        for cut in 1..4 {
            let cut = &four[..four.len() - cut];
            assert!(!whole(cut) && is_text(cut, true));
        }
        assert!(!whole(&two[..two.len() - 1]) && is_text(&two[..two.len() - 1], true));
        assert!(!is_text(&[start.as_slice(), b"\xff"].concat(), true));
        assert!(!is_text(&[start.as_slice(), b"\x80"].concat(), true));
    }

    #[test]
    fn utf16_has_its_mark_whole_pairs_and_no_controls() {
        for order in [u16::to_le_bytes as fn(u16) -> [u8; 2], u16::to_be_bytes] {
            let text = utf16("一号机\t二号机\r\n𠀀", order);
            assert!(whole(&text));
            assert!(!whole(&text[2..]), "without its mark there are bytes 0");
            assert!(!whole(&text[..text.len() - 1]) && is_text(&text[..text.len() - 1], true), "half a unit");
            assert!(!whole(&text[..text.len() - 2]) && is_text(&text[..text.len() - 2], true), "half a pair");
            let mut odd = text.clone();
            odd.extend([order(0xdc00), order(0x20)].concat());
            assert!(!is_text(&odd, true), "the second half of a pair alone");
            odd = text.clone();
            odd.extend([order(0xd800), order(0x20)].concat());
            assert!(!is_text(&odd, true), "the first half of a pair alone");
            odd = text;
            odd.extend(order(0));
            assert!(!is_text(&odd, true), "a control character");
        }
    }

    #[test]
    fn bytes_0_are_no_text() {
        assert!(!whole(b"PK\x03\x04\0\0\x20\x01\x20 and so many letters"));
        assert!(!whole(&[0; 40]));
    }
}
