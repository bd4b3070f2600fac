//! The records of the file `accounts`.

use crate::sheet::{Key, Lock, MOST, Payment, Sheet, number, take};

#[derive(Clone, Debug, PartialEq, Eq)]
pub enum Record {
    /// A sheet signed by the node.
    Signed(Sheet),
    /// A sheet signed by both.
    SignedByBoth(Sheet),
    PassedOn {
        lock: Lock,
        from: u8,
        to: u8,
    },
    Key(Key),
}

/// What stands at a place in a file.
#[derive(Clone, Debug, PartialEq, Eq)]
pub enum Found {
    /// A record, and how many bytes it has.
    Whole(Record, usize),
    /// The file ends within a record.
    Short,
    Damaged,
}

impl Record {
    pub fn write(&self) -> Vec<u8> {
        match self {
            Record::Signed(sheet) => [&[4][..], &sheet.write()].concat(),
            Record::SignedByBoth(sheet) => [&[5][..], &sheet.write()].concat(),
            Record::PassedOn { lock, from, to } => [&[6][..], lock, &[*from, *to]].concat(),
            Record::Key(key) => [&[7][..], key].concat(),
        }
    }

    /// The record that `bytes`, which aren't empty, begin with.
    pub fn read(bytes: &[u8]) -> Found {
        let rest = &mut &bytes[1..];
        let record = match bytes[0] {
            4 => read_sheet(rest).map(|sheet| sheet.map(Record::Signed)),
            5 => read_sheet(rest).map(|sheet| sheet.map(Record::SignedByBoth)),
            6 => Ok(read_passed_on(rest)),
            7 => Ok(take(rest).map(Record::Key)),
            _ => Err(CountAbove),
        };
        match record {
            Ok(Some(record)) => Found::Whole(record, bytes.len() - rest.len()),
            Ok(None) => Found::Short,
            Err(CountAbove) => Found::Damaged,
        }
    }
}

/// A byte that can't be in a file, however it goes on: a count above 32, or a first byte of no record.
struct CountAbove;

fn read_passed_on(rest: &mut &[u8]) -> Option<Record> {
    let lock = take(rest)?;
    let [from, to] = take(rest)?;
    Some(Record::PassedOn { lock, from, to })
}

/// A sheet, or none if the bytes end before it does.
fn read_sheet(rest: &mut &[u8]) -> Result<Option<Sheet>, CountAbove> {
    let Some(mut sheet) = read_numbers(rest) else { return Ok(None) };
    for payments in [&mut sheet.ins, &mut sheet.outs] {
        match read_payments(rest)? {
            Some(read) => *payments = read,
            None => return Ok(None),
        }
    }
    Ok(Some(sheet))
}

fn read_numbers(rest: &mut &[u8]) -> Option<Sheet> {
    let [account] = take(rest)?;
    let (number, own, theirs) = (number(rest)?, number(rest)?, number(rest)?);
    Some(Sheet { account, number, own, theirs, ins: Vec::new(), outs: Vec::new() })
}

fn read_payments(rest: &mut &[u8]) -> Result<Option<Vec<Payment>>, CountAbove> {
    match take(rest) {
        None => Ok(None),
        Some([count]) if usize::from(count) > MOST => Err(CountAbove),
        Some([count]) => Ok((0..count).map(|_| Payment::read(rest)).collect()),
    }
}

#[cfg(test)]
mod tests {
    use super::*;

    fn records() -> [Record; 4] {
        let payment = Payment { lock: [9; 32], amount: 1, end: 2 };
        let sheet = Sheet {
            account: 1,
            number: 2,
            own: 3,
            theirs: 4,
            ins: vec![payment],
            outs: vec![payment; 2],
        };
        [
            Record::Signed(sheet.clone()),
            Record::SignedByBoth(sheet),
            Record::PassedOn { lock: [8; 32], from: 1, to: 0 },
            Record::Key([7; 32]),
        ]
    }

    #[test]
    fn whole_short_and_damaged() {
        for record in records() {
            let bytes = record.write();
            let more = [&bytes[..], &[4]].concat();
            assert_eq!(Record::read(&more), Found::Whole(record.clone(), bytes.len()));
            for length in 1..bytes.len() {
                assert_eq!(Record::read(&bytes[..length]), Found::Short);
            }
            for first in [0, 3, 8, 255] {
                assert_eq!(Record::read(&[first]), Found::Damaged);
            }
        }
    }

    #[test]
    fn a_count_above_32_is_damage_though_the_record_is_short() {
        let bytes = records()[0].write();
        for count_at in [14, 15 + 40] {
            let mut bytes = bytes[..count_at + 1].to_vec();
            assert_eq!(Record::read(&bytes), Found::Short);
            bytes[count_at] = 33;
            assert_eq!(Record::read(&bytes), Found::Damaged);
        }
    }
}
