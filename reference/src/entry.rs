//! The lines into a node.

use crate::hex;
use crate::message::{Message, Signature};
use crate::refusal::Refusal;
use crate::sheet::{Key, Lock, Sheet};

/// One thing that a node is given. An account is what the line says, and may be none of the node's.
#[derive(Clone, Debug, PartialEq, Eq)]
pub enum Entry {
    /// A sheet proposed by the neighbour of `account`, in its view, perhaps with its signature under it.
    Proposal {
        account: u32,
        sheet: Sheet,
        signature: Option<Signature>,
    },
    Signature {
        account: u32,
        signature: Signature,
    },
    Key(Key),
    Pass(Pass),
    Pay {
        account: u32,
        lock: Lock,
    },
    Get {
        account: u32,
        lock: Lock,
    },
    GiveUp {
        account: u32,
        lock: Lock,
    },
    Look(Look),
}

/// The owner's call to pass the in with `lock` on.
#[derive(Clone, Copy, Debug, PartialEq, Eq)]
pub struct Pass {
    pub from: u32,
    pub to: u32,
    pub lock: Lock,
    pub amount: u32,
    pub end: u32,
}

/// What the register shows at a tick.
#[derive(Clone, Debug, PartialEq, Eq)]
pub struct Look {
    pub tick: u32,
    pub words: Vec<Word>,
}

/// A statement of the register.
#[derive(Clone, Copy, Debug, PartialEq, Eq)]
pub enum Word {
    Dispute(Dispute),
    /// A key was shown for the account at the tick.
    Key {
        account: u32,
        key: Key,
        tick: u32,
    },
}

/// A dispute in the account shows the sheet with this number, and ends or ended at `until`.
#[derive(Clone, Copy, Debug, PartialEq, Eq)]
pub struct Dispute {
    pub account: u32,
    pub number: u32,
    pub until: u32,
}

impl Entry {
    /// What a line asks for. The line is without its newline.
    pub fn read(line: &[u8]) -> Result<Entry, Refusal> {
        let words: Vec<&[u8]> =
            line.split(|byte| *byte == b' ').filter(|word| !word.is_empty()).collect();
        match words.as_slice() {
            [b"tick", tick, words @ ..] => read_look(tick, words),
            words => read_other(words).ok_or(Refusal::Unreadable),
        }
    }
}

impl Entry {
    /// The line that asks for this, without its newline. It is the neighbour of `key_from` that sends a key.
    pub fn write(&self, key_from: u32) -> String {
        let message = |message: Message| hex::write(&message.write());
        let call = |name, account: &u32, lock| format!("{name} {account} {}", hex::write(lock));
        match self {
            Entry::Proposal { account, sheet, signature } => {
                let signature = signature.map(|signature| message(Message::Signature(signature)));
                let signature = signature.map_or(String::new(), |digits| format!(" {digits}"));
                format!("{account} {}{signature}", message(Message::Sheet(sheet.clone())))
            }
            Entry::Signature { account, signature } => {
                format!("{account} {}", message(Message::Signature(*signature)))
            }
            Entry::Key(key) => format!("{key_from} {}", message(Message::Key(*key))),
            Entry::Pass(Pass { from, to, lock, amount, end }) => {
                format!("pass {from} {to} {} {amount} {end}", hex::write(lock))
            }
            Entry::Pay { account, lock } => call("pay", account, lock),
            Entry::Get { account, lock } => call("get", account, lock),
            Entry::GiveUp { account, lock } => call("give up", account, lock),
            Entry::Look(Look { tick, words }) => {
                let words: String = words.iter().map(|word| format!(" {}", word.write())).collect();
                format!("tick {tick}{words}")
            }
        }
    }
}

fn read_other(words: &[&[u8]]) -> Option<Entry> {
    let entry = match *words {
        [b"pass", from, to, lock, amount, end] => Entry::Pass(Pass {
            from: number(from)?,
            to: number(to)?,
            lock: digest(lock)?,
            amount: number(amount)?,
            end: number(end)?,
        }),
        [b"pay", account, lock] => Entry::Pay { account: number(account)?, lock: digest(lock)? },
        [b"get", account, lock] => Entry::Get { account: number(account)?, lock: digest(lock)? },
        [b"give", b"up", account, lock] => {
            Entry::GiveUp { account: number(account)?, lock: digest(lock)? }
        }
        [account, only] => from_neighbour(number(account)?, message(only)?),
        [account, first, second] => {
            let account = number(account)?;
            match (message(first)?, message(second)?) {
                (Message::Sheet(sheet), Message::Signature(signature)) => {
                    Entry::Proposal { account, sheet, signature: Some(signature) }
                }
                _ => return None,
            }
        }
        _ => return None,
    };
    Some(entry)
}

fn from_neighbour(account: u32, message: Message) -> Entry {
    match message {
        Message::Sheet(sheet) => Entry::Proposal { account, sheet, signature: None },
        Message::Signature(signature) => Entry::Signature { account, signature },
        Message::Key(key) => Entry::Key(key),
    }
}

/// A tick above the limit is told apart only where all else can be read.
fn read_look(tick: &[u8], words: &[&[u8]]) -> Result<Entry, Refusal> {
    let tick = value(tick).ok_or(Refusal::Unreadable)?;
    let words: Option<Vec<Word>> = words.iter().map(|word| Word::read(word)).collect();
    let words = words.ok_or(Refusal::Unreadable)?;
    let tick = u32::try_from(tick).map_err(|_| Refusal::TooLarge)?;
    Ok(Entry::Look(Look { tick, words }))
}

impl Word {
    pub fn write(&self) -> String {
        match self {
            Word::Dispute(Dispute { account, number, until }) => {
                format!("{account}:{number}:{until}")
            }
            Word::Key { account, key, tick } => format!("{account}:{}:{tick}", hex::write(key)),
        }
    }

    fn read(word: &[u8]) -> Option<Word> {
        let parts: Vec<&[u8]> = word.split(|byte| *byte == b':').collect();
        let [account, middle, tick] = *parts else { return None };
        let (account, tick) = (number(account)?, number(tick)?);
        Some(match middle.len() {
            64 => Word::Key { account, key: digest(middle)?, tick },
            _ => Word::Dispute(Dispute { account, number: number(middle)?, until: tick }),
        })
    }
}

fn message(word: &[u8]) -> Option<Message> {
    Message::read(&hex::read(word)?)
}

/// 32 bytes as 64 hexadecimal digits.
fn digest(word: &[u8]) -> Option<[u8; 32]> {
    hex::read(word)?.try_into().ok()
}

/// A decimal number up to the limit.
pub fn number(word: &[u8]) -> Option<u32> {
    u32::try_from(value(word)?).ok()
}

/// A decimal number. One that is too large for this type becomes the largest of it.
pub fn value(word: &[u8]) -> Option<u64> {
    if word.is_empty() {
        return None;
    }
    word.iter().try_fold(0u64, |value, digit| {
        let digit = digit.is_ascii_digit().then(|| digit - b'0')?;
        Some(value.saturating_mul(10).saturating_add(digit.into()))
    })
}

#[cfg(test)]
mod tests {
    use super::*;

    fn read(line: &str) -> Result<Entry, Refusal> {
        Entry::read(line.as_bytes())
    }

    fn look(tick: u32, words: &[Word]) -> Result<Entry, Refusal> {
        Ok(Entry::Look(Look { tick, words: words.into() }))
    }

    #[test]
    fn looks() {
        let dispute = Word::Dispute(Dispute { account: 1, number: 2, until: 3 });
        let key = Word::Key { account: 4294967295, key: [0xab; 32], tick: 0 };
        assert_eq!(read("tick 7"), look(7, &[]));
        assert_eq!(read("  tick   007  1:2:3 "), look(7, &[dispute]));
        let word = format!("4294967295:{}:0", "aB".repeat(32));
        assert_eq!(read(&format!("tick 0 {word} 1:02:3")), look(0, &[key, dispute]));
        let zeros = format!("1:{}2:3", "0".repeat(64));
        assert_eq!(read(&format!("tick 7 {zeros}")), look(7, &[dispute]));
    }

    #[test]
    fn unreadable_looks() {
        for line in [
            "tick",
            "tick ",
            "Tick 7",
            "tick x",
            "tick -1",
            "tick 1 2",
            "tick 1 1:2",
            "tick 1 1:2:3:4",
            "tick 1 1::3",
            "tick 1 :2:3",
            "tick 1 1:2:",
            "tick 1 1:4294967296:3",
            "tick 1 4294967296:2:3",
            "tick 1 1:2:4294967296",
            "tick 4294967296 1:2",
            "tick 1\t",
        ] {
            assert_eq!(read(line), Err(Refusal::Unreadable), "{line}");
        }
        assert_eq!(read("tick 4294967296"), Err(Refusal::TooLarge));
        let large = "9".repeat(100);
        assert_eq!(read(&format!("tick {large} 1:2:3")), Err(Refusal::TooLarge));
    }

    #[test]
    fn calls() {
        let lock = "07".repeat(32);
        let pass = Pass { from: 0, to: 1, lock: [7; 32], amount: 5, end: 190 };
        assert_eq!(read(&format!("pass 0 1 {lock} 5 190")), Ok(Entry::Pass(pass)));
        let account = 3;
        assert_eq!(read(&format!("pay 3 {lock}")), Ok(Entry::Pay { account, lock: [7; 32] }));
        assert_eq!(read(&format!("get 3 {lock}")), Ok(Entry::Get { account, lock: [7; 32] }));
        let give_up = Ok(Entry::GiveUp { account, lock: [7; 32] });
        assert_eq!(read(&format!("give up 3 {lock}")), give_up);
        for line in [
            format!("giveup 3 {lock}"),
            format!("give 3 {lock}"),
            format!("pay 3 {lock}00"),
            format!("pay 3 {lock} 1"),
            format!("pay 4294967296 {lock}"),
            format!("pass 0 1 {lock} 5 4294967296"),
            format!("pass 0 1 {lock} 5"),
            String::new(),
            " ".into(),
        ] {
            assert_eq!(read(&line), Err(Refusal::Unreadable), "{line}");
        }
    }
}
