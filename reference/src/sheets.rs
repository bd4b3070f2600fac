//! What the program `sheets` answers to a line.

use crate::change::{Change, apply, recognise};
use crate::hex;
use crate::refusal::Refusal;
use crate::sheet::{Payment, Sheet};

/// The changes by their names in a line.
pub const NAMES: [(&str, Change); 6] = [
    ("offered", Change::Offered),
    ("passing", Change::PassingOn),
    ("paying", Change::Paying),
    ("getting", Change::Getting),
    ("returned", Change::Returned),
    ("giving", Change::GivingUp),
];

/// The answer to a line, both without their newline.
pub fn answer(line: &[u8]) -> String {
    let words: Vec<&[u8]> =
        line.split(|byte| *byte == b' ').filter(|word| !word.is_empty()).collect();
    let answer = match words.as_slice() {
        [b"read", bytes, ..] => read(bytes),
        [b"turn", sheet, ..] => turn(sheet),
        [b"change", name, sheet, payment, ..] => change(name, sheet, payment),
        [b"propose", held, proposed, ..] => propose(held, proposed),
        _ => Err(Refusal::Unreadable),
    };
    answer.unwrap_or_else(|refusal| refusal.to_string())
}

fn read(word: &[u8]) -> Result<String, Refusal> {
    let bytes = hex::read(word).ok_or(Refusal::Unreadable)?;
    let (sheet, used) = Sheet::read(&bytes).ok_or(Refusal::Unreadable)?;
    Ok(format!("sheet {used} {}", digits(&sheet)))
}

fn turn(word: &[u8]) -> Result<String, Refusal> {
    Ok(format!("sheet {}", digits(&sheet(word)?.turned())))
}

fn change(name: &[u8], held: &[u8], payment: &[u8]) -> Result<String, Refusal> {
    let named = NAMES.iter().find(|(known, _)| known.as_bytes() == name);
    let (_, change) = named.ok_or(Refusal::Unreadable)?;
    let held = sheet(held)?;
    let payment = hex::read(payment).and_then(|bytes| Payment::read_whole(&bytes));
    let next = apply(&held, *change, &payment.ok_or(Refusal::Unreadable)?)?;
    Ok(format!("sheet {}", digits(&next)))
}

fn propose(held: &[u8], proposed: &[u8]) -> Result<String, Refusal> {
    let (held, proposed) = (sheet(held)?, sheet(proposed)?);
    let (change, payment) = recognise(&held, &proposed).ok_or(Refusal::Mismatch)?;
    let next = apply(&held, change, &payment)?;
    let (name, _) = NAMES.iter().find(|(_, known)| *known == change).expect("all have names");
    Ok(format!("{name} {}", digits(&next)))
}

/// The sheet that a word is, with nothing after it.
fn sheet(word: &[u8]) -> Result<Sheet, Refusal> {
    hex::read(word).and_then(|bytes| Sheet::read_whole(&bytes)).ok_or(Refusal::Unreadable)
}

fn digits(sheet: &Sheet) -> String {
    hex::write(&sheet.write())
}

#[cfg(test)]
mod tests {
    use super::*;

    /// Account 1, number 2, own 3, theirs 4, and no payments.
    const EMPTY: &str = "010000000200000003000000040000";

    fn answered(line: &str) -> String {
        answer(line.as_bytes())
    }

    #[test]
    fn reads_the_first_sheet() {
        assert_eq!(answered(&format!("read {EMPTY}")), format!("sheet 15 {EMPTY}"));
        assert_eq!(answered(&format!("read {EMPTY}aa")), format!("sheet 15 {EMPTY}"));
        assert_eq!(answered(&format!("read {}", &EMPTY[2..])), "no 1");
    }

    #[test]
    fn turns_exactly_one_sheet() {
        let turned = "sheet 010000000200000004000000030000";
        assert_eq!(answered(&format!("turn {EMPTY}")), turned);
        assert_eq!(answered(&format!("turn {EMPTY}aa")), "no 1");
    }

    #[test]
    fn a_word_too_few_is_unreadable_and_one_too_many_not_looked_at() {
        let payment = "00".repeat(40);
        for line in [
            format!("read {EMPTY}"),
            format!("turn {EMPTY}"),
            format!("change offered {EMPTY} {payment}"),
            format!("propose {EMPTY} 0100000003000000030000000401{payment}00"),
        ] {
            let (fewer, _) = line.rsplit_once(' ').unwrap();
            assert_eq!(answered(fewer), "no 1");
            assert_eq!(answered(&format!("{line} x")), answered(&line));
        }
        assert_eq!(answered(""), "no 1");
    }

    #[test]
    fn other_names_are_unreadable() {
        let payment = "00".repeat(40);
        for name in ["offer", "Offered", "passing-on", "giving-up", "x"] {
            assert_eq!(answered(&format!("change {name} {EMPTY} {payment}")), "no 1");
        }
        assert_eq!(answered(&format!("reads {EMPTY}")), "no 1");
    }

    #[test]
    fn spaces_and_capitals_are_of_no_matter() {
        let line = format!("  read   {EMPTY}AbCd ");
        assert_eq!(answered(&line), format!("sheet 15 {EMPTY}"));
    }
}
