//! What neighbours send each other.

use crate::sheet::{Key, Sheet, number, take};

/// The sender's mark that it has signed the sheet with this number.
#[derive(Clone, Copy, Debug, PartialEq, Eq)]
pub struct Signature {
    /// The sender's own number for the account.
    pub account: u8,
    pub number: u32,
}

#[derive(Clone, Debug, PartialEq, Eq)]
pub enum Message {
    /// A sheet proposed as next, in the sender's view.
    Sheet(Sheet),
    Signature(Signature),
    Key(Key),
}

impl Message {
    pub fn write(&self) -> Vec<u8> {
        match self {
            Message::Sheet(sheet) => [&[1][..], &sheet.write()].concat(),
            Message::Signature(Signature { account, number }) => {
                [&[2, *account][..], &number.to_be_bytes()].concat()
            }
            Message::Key(key) => [&[3][..], key].concat(),
        }
    }

    /// The message that `bytes` are, with nothing after it.
    pub fn read(bytes: &[u8]) -> Option<Message> {
        let (first, mut rest) = bytes.split_first()?;
        let message = match first {
            1 => return Sheet::read_whole(rest).map(Message::Sheet),
            2 => {
                let [account] = take(&mut rest)?;
                Message::Signature(Signature { account, number: number(&mut rest)? })
            }
            3 => Message::Key(take(&mut rest)?),
            _ => return None,
        };
        rest.is_empty().then_some(message)
    }
}

#[cfg(test)]
mod tests {
    use super::*;
    use crate::hex;

    fn read(digits: &str) -> Option<Message> {
        Message::read(&hex::read(digits.as_bytes()).unwrap())
    }

    #[test]
    fn reads_what_was_written() {
        let key = "03".to_string() + &"07".repeat(32);
        for digits in ["010300000001000000050000000a0000", "020300000001", &key] {
            assert_eq!(hex::write(&read(digits).unwrap().write()), digits);
            assert_eq!(read(&digits[..digits.len() - 2]), None);
            assert_eq!(read(&format!("{digits}00")), None);
            assert_eq!(read(&format!("04{}", &digits[2..])), None);
            assert_eq!(read(&format!("00{}", &digits[2..])), None);
        }
        assert_eq!(read(""), None);
    }

    #[test]
    fn a_signature() {
        let signature = Signature { account: 3, number: 1 };
        assert_eq!(read("020300000001"), Some(Message::Signature(signature)));
    }
}
