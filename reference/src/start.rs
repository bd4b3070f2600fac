//! The node that a file tells of.

use crate::conduct::Conduct;
use crate::node::{Account, Node};
use crate::record::{Found, Record};
use crate::sheet::Sheet;
use crate::terms::{MOST_ACCOUNTS, Terms};

/// A node at its start.
pub struct Start {
    pub node: Node,
    /// How many bytes of the file are whole records.
    pub whole: usize,
    /// First sheets that the file doesn't have, and that are recorded after it was cut back.
    pub missing: Vec<Record>,
}

#[derive(Clone, Copy, Debug, PartialEq, Eq)]
pub enum Refused {
    /// The record at this byte can't be one that the node wrote there.
    Damaged(usize),
    OtherAccounts,
}

impl Start {
    pub fn read(terms: &Terms, conduct: Conduct, file: &[u8]) -> Result<Start, Refused> {
        let mut node = Node::new(terms, conduct);
        let mut firsts = Vec::new();
        let mut whole = 0;
        let mut only_firsts = true;
        while whole < file.len() {
            let (record, length) = match Record::read(&file[whole..]) {
                Found::Whole(record, length) => (record, length),
                Found::Short => break,
                Found::Damaged => return Err(Refused::Damaged(whole)),
            };
            if !could_write(&node, only_firsts, &record) {
                return Err(Refused::Damaged(whole));
            }
            node.take_in(&record);
            match record {
                Record::SignedByBoth(sheet) if sheet.number == 0 => firsts.push(sheet),
                _ => only_firsts = false,
            }
            whole += length;
        }
        let missing = missing_sheets(terms, &firsts, only_firsts)?;
        missing.iter().for_each(|record| node.take_in(record));
        Ok(Start { node, whole, missing })
    }
}

/// Whether a node could have written the record where it stands.
fn could_write(node: &Node, only_firsts: bool, record: &Record) -> bool {
    match record {
        Record::SignedByBoth(sheet) if sheet.number == 0 => {
            only_firsts && is_right_first_sheet(node, sheet)
        }
        Record::SignedByBoth(sheet) => {
            account(node, sheet).is_some_and(|account| account.next.as_ref() == Some(sheet))
        }
        Record::Signed(sheet) => account(node, sheet).is_some_and(|account| {
            let number = u64::from(account.held.number) + 1;
            account.next.is_none() && u64::from(sheet.number) == number
        }),
        Record::PassedOn { lock, from, to } => {
            let is_there = |account: u8| usize::from(account) < node.accounts.len();
            is_there(*from) && is_there(*to) && from != to && !node.passed_on.contains_key(lock)
        }
        Record::Key(_) => true,
    }
}

fn is_right_first_sheet(node: &Node, sheet: &Sheet) -> bool {
    let place = node.accounts.len();
    let deposits = sheet.own.checked_add(sheet.theirs);
    let empty = sheet.ins.is_empty() && sheet.outs.is_empty();
    usize::from(sheet.account) == place && place < MOST_ACCOUNTS && empty && deposits.is_some()
}

/// The account of a sheet, if it is there and has the same money.
fn account<'a>(node: &'a Node, sheet: &Sheet) -> Option<&'a Account> {
    let account = node.accounts.get(usize::from(sheet.account))?;
    (total(&account.held) == total(sheet)).then_some(account)
}

fn total(sheet: &Sheet) -> u64 {
    let amounts = sheet.ins.iter().chain(&sheet.outs).map(|payment| u64::from(payment.amount));
    u64::from(sheet.own) + u64::from(sheet.theirs) + amounts.sum::<u64>()
}

/// The first sheets of `terms` that come after those found.
fn missing_sheets(
    terms: &Terms,
    found: &[Sheet],
    only_firsts: bool,
) -> Result<Vec<Record>, Refused> {
    let firsts: Vec<Sheet> = (0..).zip(&terms.deposits).map(first_sheet).collect();
    let missing = firsts.strip_prefix(found).ok_or(Refused::OtherAccounts)?;
    if !missing.is_empty() && !only_firsts {
        return Err(Refused::OtherAccounts);
    }
    Ok(missing.iter().cloned().map(Record::SignedByBoth).collect())
}

fn first_sheet((account, (own, theirs)): (u8, &(u32, u32))) -> Sheet {
    let (own, theirs) = (*own, *theirs);
    Sheet { account, number: 0, own, theirs, ins: Vec::new(), outs: Vec::new() }
}

#[cfg(test)]
mod tests {
    use super::*;
    use crate::hex;

    const FILE: &str = "\
0500000000000000000a0000000a0000
0501000000000000000a0000000a0000
0400000000010000000a000000050148428bdb7ddd829410d6bbb924fdeb3a3d7e88c2577bffae073b990c6f061d08000000050000012c00
0500000000010000000a000000050148428bdb7ddd829410d6bbb924fdeb3a3d7e88c2577bffae073b990c6f061d08000000050000012c00
0648428bdb7ddd829410d6bbb924fdeb3a3d7e88c2577bffae073b990c6f061d080001
040100000001000000050000000a000148428bdb7ddd829410d6bbb924fdeb3a3d7e88c2577bffae073b990c6f061d0800000005000000be
070000000000000000000000000000000000000000000000000000000000000007
";

    fn terms(accounts: usize) -> Terms {
        Terms { gap: 110, window: 50, delay: 5, look: 13, deposits: vec![(10, 10); accounts] }
    }

    fn records() -> Vec<Vec<u8>> {
        FILE.lines().map(|line| hex::read(line.as_bytes()).unwrap()).collect()
    }

    fn read(accounts: usize, file: &[u8]) -> Result<Start, Refused> {
        Start::read(&terms(accounts), Conduct::Rules, file)
    }

    #[test]
    fn every_cut_leaves_the_whole_records() {
        let file = records().concat();
        for cut in 0..=file.len() {
            let lengths = records().into_iter().scan(0, |sum, record| {
                *sum += record.len();
                Some(*sum)
            });
            let whole = lengths.take_while(|length| *length <= cut).last().unwrap_or(0);
            let start = read(2, &file[..cut]).unwrap_or_else(|_| panic!("cut at {cut}"));
            assert_eq!(start.whole, whole);
            assert_eq!(start.node.accounts.len(), 2);
            assert_eq!(start.missing.len(), 2 - (whole / 16).min(2));
        }
    }

    #[test]
    fn other_accounts() {
        let file = records().concat();
        for accounts in [1, 3] {
            assert_eq!(read(accounts, &file).err(), Some(Refused::OtherAccounts));
        }
        assert_eq!(read(3, &file[..40]).unwrap().missing.len(), 1);
        assert_eq!(read(1, &file[..40]).err(), Some(Refused::OtherAccounts));
        let others = Terms { deposits: vec![(10, 10), (11, 9)], ..terms(2) };
        let start = Start::read(&others, Conduct::Rules, &file);
        assert_eq!(start.err(), Some(Refused::OtherAccounts));
    }

    /// The file with one record in the place of another, and where it is damaged.
    fn damage(place: usize, record: &[u8]) -> Option<Refused> {
        let mut records = records();
        records[place] = record.to_vec();
        read(2, &records.concat()).err()
    }

    #[test]
    fn damaged_records() {
        let records = records();
        let at = |place: usize| Some(Refused::Damaged(records[..place].concat().len()));
        for (place, record, found) in [
            (0, &records[1], at(0)),
            (1, &records[0], at(1)),
            (3, &records[2], at(3)),
            (2, &records[3], at(2)),
            (5, &records[4], at(5)),
            (5, &records[1], at(5)),
            (5, &records[2], at(5)),
            (5, &records[6], None),
        ] {
            assert_eq!(damage(place, record), found);
        }
    }
}
