//! Bytes as hexadecimal digits: small ones are written, either case is read.

pub fn write(bytes: &[u8]) -> String {
    let digit = |value: u8| char::from(b"0123456789abcdef"[usize::from(value)]);
    bytes.iter().flat_map(|byte| [digit(byte >> 4), digit(byte & 15)]).collect()
}

/// The bytes that `digits` stand for; none if their number is odd or one of them isn't a digit.
pub fn read(digits: &[u8]) -> Option<Vec<u8>> {
    let (pairs, rest) = digits.as_chunks::<2>();
    if !rest.is_empty() {
        return None;
    }
    pairs.iter().map(|[high, low]| Some(value(*high)? * 16 + value(*low)?)).collect()
}

fn value(digit: u8) -> Option<u8> {
    match digit {
        b'0'..=b'9' => Some(digit - b'0'),
        b'a'..=b'f' => Some(digit - b'a' + 10),
        b'A'..=b'F' => Some(digit - b'A' + 10),
        _ => None,
    }
}

#[cfg(test)]
mod tests {
    use super::*;

    #[test]
    fn writes_small_digits() {
        assert_eq!(write(&[]), "");
        assert_eq!(write(&[0, 9, 0x1a, 0xff]), "00091aff");
    }

    #[test]
    fn reads_either_case() {
        assert_eq!(read(b""), Some(vec![]));
        assert_eq!(read(b"00091aFf"), Some(vec![0, 9, 0x1a, 0xff]));
    }

    #[test]
    fn reads_back_every_byte() {
        let bytes: Vec<u8> = (0..=255).collect();
        assert_eq!(read(write(&bytes).as_bytes()), Some(bytes.clone()));
        assert_eq!(read(write(&bytes).to_uppercase().as_bytes()), Some(bytes));
    }

    #[test]
    fn refuses_an_odd_number() {
        assert_eq!(read(b"0"), None);
        assert_eq!(read(b"abc"), None);
    }

    #[test]
    fn refuses_every_other_byte() {
        for other in (0..=255u8).filter(|byte| !byte.is_ascii_hexdigit()) {
            assert_eq!(read(&[other, b'0']), None);
            assert_eq!(read(&[b'0', other]), None);
        }
    }
}
