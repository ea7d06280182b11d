//! UTF-8 by the syntax of RFC 3629, section 4.

/// Whether the bytes are UTF-8.
pub fn is_utf8(mut bytes: &[u8]) -> bool {
    while let Some(length) = character(bytes) {
        bytes = &bytes[length..];
    }
    bytes.is_empty()
}

/// The length of the character at the front, if there is a sound one.
fn character(bytes: &[u8]) -> Option<usize> {
    let (length, second) = match *bytes.first()? {
        0x00..=0x7F => return Some(1),
        0xC2..=0xDF => (2, 0x80..=0xBF),
        0xE0 => (3, 0xA0..=0xBF),
        0xED => (3, 0x80..=0x9F),
        0xE1..=0xEF => (3, 0x80..=0xBF),
        0xF0 => (4, 0x90..=0xBF),
        0xF1..=0xF3 => (4, 0x80..=0xBF),
        0xF4 => (4, 0x80..=0x8F),
        _ => return None,
    };
    let tail = bytes.get(1..length)?;
    let sound = second.contains(&tail[0]) && tail[1..].iter().all(|b| (0x80..=0xBF).contains(b));
    sound.then_some(length)
}

#[cfg(test)]
mod tests {
    use super::is_utf8;

    #[test]
    fn agrees_with_the_standard_library() {
        let edges = [
            0x00, 0x41, 0x7F, 0x80, 0x8F, 0x90, 0x9F, 0xA0, 0xBF, 0xC0, 0xC1, 0xC2, 0xDF, 0xE0,
            0xE1, 0xEC, 0xED, 0xEE, 0xEF, 0xF0, 0xF1, 0xF3, 0xF4, 0xF5, 0xFF,
        ];
        for a in edges {
            for b in edges {
                for c in edges {
                    for d in edges {
                        let bytes = [a, b, c, d];
                        for length in 0..=4 {
                            let part = &bytes[..length];
                            assert_eq!(is_utf8(part), std::str::from_utf8(part).is_ok());
                        }
                    }
                }
            }
        }
    }
}
