//! Random lines for `sheets`, made so that what is rare among random bytes is frequent.

use crate::case::Case;
use crate::change::{Change, apply};
use crate::hex;
use crate::random::Random;
use crate::sheet::{MOST, Payment, Sheet};
use crate::sheets::NAMES;

const LIMIT: u32 = u32::MAX;

/// The changes that a neighbour may propose.
const PROPOSED: [Change; 3] = [Change::Offered, Change::Returned, Change::Getting];

/// The kinds of lines.
const KINDS: [fn(&mut Lines) -> Case; 4] =
    [Lines::read, Lines::turn, Lines::change, Lines::propose];

/// Some lines that are always there, and `count` random ones of each kind. The first are small, so that what differs is short.
pub fn cases(seed: u64, count: usize) -> impl Iterator<Item = Case> + Send {
    let mut lines = Lines::from_seed(seed);
    let fixed = [unreadable(), lines.cuts()].concat();
    let random = (0..count * KINDS.len()).map(move |place| {
        lines.small = place / KINDS.len() < count / 4;
        KINDS[place % KINDS.len()](&mut lines)
    });
    fixed.into_iter().chain(random)
}

/// Lines that are none of the four kinds, or have too few words.
fn unreadable() -> Vec<Case> {
    let sheet = "010000000700000000000000000000";
    let payment = "00".repeat(40);
    let lines = [
        "".into(),
        " ".into(),
        "read".into(),
        "read ".into(),
        "turn".into(),
        "change".into(),
        "change offered".into(),
        format!("change offered {sheet}"),
        format!("change {sheet} {payment}"),
        format!("change offered {payment} {sheet}"),
        "propose".into(),
        format!("propose {sheet}"),
        sheet.into(),
        format!("Read {sheet}"),
        format!("reads {sheet}"),
        format!("rea {sheet}"),
        format!("read{sheet}"),
        format!("read\t{sheet}"),
        format!("\tread {sheet}"),
        format!("offered {sheet} {payment}"),
    ];
    lines.map(|line| Case { line: line.into(), known: Some("no 1".into()) }).into()
}

struct Lines {
    random: Random,
    /// Locks that differ in one byte each, so that many payments have the same lock or nearly so.
    pool: Vec<[u8; 32]>,
    /// Whether sheets have at most 3 ins and 3 outs.
    small: bool,
}

// What the lines are made of.
impl Lines {
    fn from_seed(seed: u64) -> Lines {
        let mut lines = Lines { random: Random::from_seed(seed), pool: Vec::new(), small: false };
        let first = lines.random_lock();
        lines.pool = vec![first, [0; 32], [1; 32], [0xff; 32]];
        for place in 0..32 {
            let mut other = first;
            other[place] ^= 1;
            lines.pool.push(other);
        }
        lines
    }

    fn random_lock(&mut self) -> [u8; 32] {
        self.random.bytes(32).try_into().expect("32 bytes")
    }

    /// A lock from the pool, or a random one.
    fn lock(&mut self) -> [u8; 32] {
        if self.random.chance(60) { self.random.one_of(&self.pool) } else { self.random_lock() }
    }

    /// Small, near the limit, or any.
    fn number(&mut self) -> u32 {
        match self.random.below(4) {
            0 | 1 => self.random.below(20) as u32,
            2 => LIMIT - self.random.below(20) as u32,
            _ => self.random.number() as u32,
        }
    }

    /// One more, one less, or with another bit.
    fn beside(&mut self, number: u32) -> u32 {
        match self.random.below(3) {
            0 => number.wrapping_add(1),
            1 => number.wrapping_sub(1),
            _ => number ^ (1 << self.random.below(32)),
        }
    }

    /// Another lock that differs in one bit.
    fn near(&mut self, mut lock: [u8; 32]) -> [u8; 32] {
        lock[self.random.below(32)] ^= 1 << self.random.below(8);
        lock
    }

    /// A number from 0 to `most`, often one of its ends or beside it.
    fn up_to(&mut self, most: u32) -> u32 {
        match self.random.below(5) {
            0 => most,
            1 => most.saturating_sub(1),
            2 => 0,
            _ => self.random.below(most as usize + 1) as u32,
        }
    }

    fn length(&mut self) -> usize {
        match self.random.below(20) {
            _ if self.small => self.random.below(4),
            0..9 => self.random.below(4),
            9..12 => MOST - 1,
            12..15 => MOST,
            _ => self.random.below(MOST + 1),
        }
    }

    fn payments(&mut self) -> Vec<Payment> {
        let mut left = self.pool.clone();
        let kind = self.random.below(10);
        let payments = (0..self.length()).map(|_| match kind {
            0 => Payment { lock: self.random_lock(), amount: self.number(), end: self.number() },
            // Locks, and whole payments, that stand several times.
            1 | 2 => Payment {
                lock: self.pool[self.random.below(3)],
                amount: self.random.below(2) as u32,
                end: self.random.below(2) as u32,
            },
            3 => Payment { lock: self.lock(), amount: self.number(), end: self.number() },
            // Each lock once, as on all sheets that the rules lead to.
            _ => Payment {
                lock: left.swap_remove(self.random.below(left.len())),
                amount: self.number(),
                end: self.number(),
            },
        });
        payments.collect()
    }

    fn sheet(&mut self) -> Sheet {
        let account = if self.random.chance(80) { 16 } else { 256 };
        Sheet {
            account: self.random.below(account) as u8,
            number: if self.random.chance(10) { LIMIT } else { self.number() },
            own: self.number(),
            theirs: self.number(),
            ins: self.payments(),
            outs: self.payments(),
        }
    }

    /// A place among `length`, often the first or the last.
    fn place(&mut self, length: usize) -> usize {
        match self.random.below(4) {
            0 => 0,
            1 => length - 1,
            _ => self.random.below(length),
        }
    }

    /// A sheet and a payment with which `change` may be taken, or just not.
    fn asked(&mut self, change: Change) -> (Sheet, Payment) {
        let mut held = self.sheet();
        let adds = [Change::Offered, Change::PassingOn].contains(&change);
        let mut payment = Payment { lock: self.lock(), amount: self.number(), end: self.number() };
        let (payments, others) = match change {
            Change::Offered | Change::Getting | Change::GivingUp => (&held.ins, &held.outs),
            Change::PassingOn | Change::Paying | Change::Returned => (&held.outs, &held.ins),
        };
        if !payments.is_empty() && self.random.chance(if adds { 15 } else { 80 }) {
            payment = payments[self.place(payments.len())];
        } else if !others.is_empty() && self.random.chance(40) {
            payment = others[self.place(others.len())];
        }
        if self.random.chance(30) {
            (payment.amount, payment.end) = (self.number(), self.number());
        }
        if !payments.is_empty() && self.random.chance(10) {
            let place = self.place(payments.len());
            payment.lock = self.near(payments[place].lock);
        }
        let found = payments.iter().find(|other| other.lock == payment.lock).copied();
        let purse = match change {
            Change::PassingOn | Change::Getting | Change::Returned => &mut held.own,
            Change::Offered | Change::Paying | Change::GivingUp => &mut held.theirs,
        };
        match found {
            // What comes of it is the limit, or beside it.
            Some(found) if !adds && self.random.chance(40) => {
                let beside = self.random.below(3) as u32;
                *purse = (LIMIT - found.amount).saturating_add(beside).saturating_sub(1);
            }
            _ if adds && self.random.chance(60) => payment.amount = self.up_to(*purse),
            _ if adds && self.random.chance(50) => payment.amount = purse.saturating_add(1),
            _ => {}
        }
        (held, payment)
    }

    /// A held sheet and what `change` makes of it.
    fn taken(&mut self, change: Change) -> (Sheet, Sheet) {
        loop {
            let (held, payment) = self.asked(change);
            if let Ok(next) = apply(&held, change, &payment) {
                return (held, next);
            }
        }
    }
}

// The lines.
impl Lines {
    /// `read` with every first part of some sheets.
    fn cuts(&mut self) -> Vec<Case> {
        let mut cases = Vec::new();
        for (ins, outs) in [(0, 0), (1, 0), (0, 1), (2, 1), (MOST, MOST)] {
            let payments: Vec<Payment> = (0..ins.max(outs))
                .map(|_| Payment { lock: self.lock(), amount: self.number(), end: self.number() })
                .collect();
            let sheet = Sheet {
                ins: payments[..ins].into(),
                outs: payments[..outs].into(),
                ..self.sheet()
            };
            let bytes = sheet.write();
            for length in 1..bytes.len() {
                let line = format!("read {}", hex::write(&bytes[..length]));
                cases.push(Case { line: line.into(), known: Some("no 1".into()) });
            }
            cases.push(whole(&sheet, &[]));
        }
        cases
    }

    fn read(&mut self) -> Case {
        let sheet = self.sheet();
        let mut bytes = sheet.write();
        let outs_at = 14 + 40 * sheet.ins.len();
        let known = match self.random.below(20) {
            0..5 => return self.written_otherwise(whole(&sheet, &[])),
            5..8 => {
                let length = 1 + self.random.below(100);
                let after = self.random.bytes(length);
                return self.written_otherwise(whole(&sheet, &after));
            }
            8 => {
                let after = self.sheet().write();
                return self.written_otherwise(whole(&sheet, &after));
            }
            9..12 => {
                bytes.truncate(1 + self.random.below(bytes.len() - 1));
                Some("no 1")
            }
            12 | 13 => {
                let count_at = self.random.one_of(&[13, outs_at]);
                bytes[count_at] = self.random.one_of(&[33, 33, 34, 64, 127, 128, 254, 255]);
                // As many as the count says, so that only the count is wrong.
                bytes.extend(self.random.bytes(40 * 256 - bytes.len().min(40 * 256)));
                bytes.truncate(15 + 40 * (usize::from(bytes[count_at]) + MOST));
                Some("no 1")
            }
            14 | 15 => {
                // Another count, and the bytes as they were: too few, or another sheet and some left.
                let count_at = self.random.one_of(&[13, outs_at]);
                let others = [bytes[count_at].wrapping_sub(1), bytes[count_at] + 1];
                bytes[count_at] = self.random.one_of(&others);
                None
            }
            16 | 17 => {
                let length = 1 + self.random.below(200);
                bytes = self.random.bytes(length);
                for count_at in [13, 14, 54] {
                    if length > count_at && self.random.chance(70) {
                        bytes[count_at] = self.random.below(3) as u8;
                    }
                }
                None
            }
            18 => {
                let mut words = vec![b"read".to_vec(), hex::write(&bytes).into()];
                self.spoil_digits(&mut words[1]);
                return line(&words, Some("no 1".into()));
            }
            _ => return line(&[b"read".to_vec()], Some("no 1".into())),
        };
        let read = line(&[b"read".to_vec(), hex::write(&bytes).into()], known.map(String::from));
        self.written_otherwise(read)
    }

    fn turn(&mut self) -> Case {
        let sheet = self.sheet();
        let words = [b"turn".to_vec(), digits(&sheet)];
        self.with_damage(&words, 20, None)
    }

    fn change(&mut self) -> Case {
        let (name, change) = self.random.one_of(&NAMES);
        let (held, payment) = self.asked(change);
        let mut words =
            [b"change".to_vec(), name.into(), digits(&held), hex::write(&payment.write()).into()];
        if self.random.chance(3) {
            let others = ["offer", "Offered", "offeredd", "pay", "passing-on", "give", "GETTING"];
            words[1] = self.random.one_of(&others).into();
            return line(&words, Some("no 1".into()));
        }
        self.with_damage(&words, 8, None)
    }

    fn propose(&mut self) -> Case {
        let (held, proposed, known) = match self.random.below(100) {
            0..30 => self.result(),
            30..50 => self.result_with_a_field_changed(),
            50..55 => self.result_swapped(),
            55..60 => self.added_at_the_end(),
            60..67 => self.offer_not_covered(),
            67..74 => self.offer_whose_lock_stands(),
            74..79 => self.result_elsewhere(),
            79..84 => self.taken_off_at_a_place(),
            84..88 => self.wrapped(),
            88..91 => self.two_changes(),
            91..95 => self.other_pair(),
            _ => return self.damaged_proposal(),
        };
        let words = [b"propose".to_vec(), digits(&held), digits(&proposed)];
        self.written_otherwise(line(&words, known))
    }
}

/// A held sheet, a proposed one, and the answer if it is known.
type Proposal = (Sheet, Sheet, Option<String>);

// The proposals.
impl Lines {
    /// The exact result of one of the six changes.
    fn result(&mut self) -> Proposal {
        let (_, change) = self.random.one_of(&NAMES);
        let (held, next) = self.taken(change);
        let nothing = held.theirs == next.theirs;
        let name = match change {
            Change::Offered => Some("offered"),
            Change::Returned => Some("returned"),
            Change::Getting => Some("getting"),
            // With an amount of 0 it makes no difference whose it becomes.
            Change::Paying => nothing.then_some("returned"),
            Change::GivingUp => nothing.then_some("getting"),
            Change::PassingOn => None,
        };
        let known = match name {
            Some(name) => format!("{name} {}", hex::write(&next.write())),
            None => "no 4".into(),
        };
        (held, next, Some(known))
    }

    /// The result of a change that can be proposed.
    fn proposable(&mut self) -> (Sheet, Sheet) {
        let change = self.random.one_of(&PROPOSED);
        self.taken(change)
    }

    /// One more, one less or one other bit somewhere.
    fn result_with_a_field_changed(&mut self) -> Proposal {
        let (held, mut next) = self.proposable();
        let no = Some("no 4".into());
        match self.random.below(10) {
            0 => next.account ^= 1 << self.random.below(8),
            1 => next.number = self.beside(next.number),
            2 => next.own = self.beside(next.own),
            3 | 4 => next.theirs = self.beside(next.theirs),
            field => {
                let payments = if field < 8 { &mut next.ins } else { &mut next.outs };
                if !payments.is_empty() {
                    let place = self.place(payments.len());
                    let payment = &mut payments[place];
                    match self.random.below(3) {
                        0 => payment.amount = self.beside(payment.amount),
                        1 => payment.end = self.beside(payment.end),
                        _ => payment.lock = self.near(payment.lock),
                    }
                }
                return (held, next, None);
            }
        }
        (held, next, no)
    }

    /// Two payments in each other's place.
    fn result_swapped(&mut self) -> Proposal {
        loop {
            let (held, next) = self.proposable();
            let mut swapped = next.clone();
            let in_ins = self.random.chance(50);
            let payments = if in_ins { &mut swapped.ins } else { &mut swapped.outs };
            if payments.len() >= 2 {
                let (one, other) = (self.place(payments.len()), self.place(payments.len()));
                payments.swap(one, other);
            }
            if swapped != next {
                return (held, swapped, Some("no 4".into()));
            }
        }
    }

    /// An in that comes last.
    fn added_at_the_end(&mut self) -> Proposal {
        loop {
            let (held, mut next) = self.taken(Change::Offered);
            next.ins.rotate_left(1);
            if !held.ins.is_empty() {
                return (held, next, Some("no 4".into()));
            }
        }
    }

    /// A held sheet whose number isn't the limit, and that has room for an in.
    fn with_room(&mut self) -> Sheet {
        loop {
            let held = self.sheet();
            if held.number < LIMIT && held.ins.len() < MOST {
                return held;
            }
        }
    }

    /// An offer of more than theirs, with any theirs.
    fn offer_not_covered(&mut self) -> Proposal {
        let mut held = self.with_room();
        held.theirs = held.theirs.min(LIMIT - 1);
        let more = self.up_to(LIMIT - 1 - held.theirs);
        let mut payment = Payment {
            lock: self.lock(),
            amount: self.random.one_of(&[held.theirs + 1, LIMIT, held.theirs + 1 + more]),
            end: self.number(),
        };
        if !held.ins.is_empty() && self.random.chance(30) {
            payment.lock = held.ins[self.place(held.ins.len())].lock;
        }
        let any = self.number();
        let wrapped = held.theirs.wrapping_sub(payment.amount);
        let theirs = self.random.one_of(&[held.theirs, wrapped, 0, any]);
        let stands = held.ins.iter().any(|other| other.lock == payment.lock);
        let known = if stands { "no 5" } else { "no 6" };
        let proposed = Sheet { theirs, ..offer(&held, payment) };
        (held, proposed, Some(known.into()))
    }

    /// An offer that is covered, with the lock of an in.
    fn offer_whose_lock_stands(&mut self) -> Proposal {
        let held = loop {
            let held = self.with_room();
            if !held.ins.is_empty() {
                break held;
            }
        };
        let lock = held.ins[self.place(held.ins.len())].lock;
        let payment = Payment { lock, amount: self.up_to(held.theirs), end: self.number() };
        let mut proposed = offer(&held, payment);
        let mut known = "no 5";
        if self.random.chance(20) {
            proposed.theirs = self.beside(proposed.theirs);
            known = "no 4";
        }
        (held, proposed, Some(known.into()))
    }

    /// The result of a change, or an offer that isn't covered, with another account.
    fn result_elsewhere(&mut self) -> Proposal {
        let (held, mut next) = if self.random.chance(70) {
            self.proposable()
        } else {
            let (held, proposed, _) = self.offer_not_covered();
            (held, proposed)
        };
        next.account = next.account.wrapping_add(1 + self.random.below(255) as u8);
        (held, next, Some("no 4".into()))
    }

    /// An in or out taken off by its place, of which the lock may stand before it too.
    fn taken_off_at_a_place(&mut self) -> Proposal {
        loop {
            let held = self.sheet();
            let mut next = held.clone();
            let payments = if self.random.chance(50) { &mut next.ins } else { &mut next.outs };
            if payments.is_empty() || held.number == LIMIT {
                continue;
            }
            let payment = payments.remove(self.place(payments.len()));
            next.own = held.own.wrapping_add(payment.amount);
            next.number += 1;
            return (held, next, None);
        }
    }

    /// The number after the limit, or own past the limit, as if counting began again at 0.
    fn wrapped(&mut self) -> Proposal {
        if self.random.chance(50) {
            let (mut held, mut next) = self.proposable();
            held.number = LIMIT;
            next.number = self.random.one_of(&[0, LIMIT]);
            return (held, next, Some("no 4".into()));
        }
        loop {
            let (mut held, mut next) = if self.random.chance(50) {
                self.taken(Change::Returned)
            } else {
                self.taken(Change::Getting)
            };
            let amount = next.own - held.own;
            if amount > 0 {
                held.own = LIMIT - self.random.below(amount as usize) as u32;
                next.own = held.own.wrapping_add(amount);
                return (held, next, Some("no 4".into()));
            }
        }
    }

    /// Two changes as one.
    fn two_changes(&mut self) -> Proposal {
        loop {
            let (held, next) = self.proposable();
            let payment = match (next.ins.first(), next.outs.first()) {
                (Some(first), None) => *first,
                (None, Some(first)) => *first,
                (Some(first), Some(other)) => self.random.one_of(&[*first, *other]),
                (None, None) => continue,
            };
            let change = self.random.one_of(&PROPOSED);
            let lock = if change == Change::Offered { self.random_lock() } else { payment.lock };
            let payment = Payment { lock, amount: self.up_to(next.theirs), ..payment };
            if let Ok(after) = apply(&next, change, &payment)
                && after.ins.len() + after.outs.len() != held.ins.len() + held.outs.len()
            {
                let proposed = Sheet { number: next.number, ..after };
                return (held, proposed, Some("no 4".into()));
            }
        }
    }

    /// The held sheet itself, only its number one higher, any other sheet, or the result in the other's view.
    fn other_pair(&mut self) -> Proposal {
        let held = self.sheet();
        let no = Some("no 4".into());
        match self.random.below(4) {
            0 => (held.clone(), held, no),
            1 => {
                let number = held.number.wrapping_add(1);
                (held.clone(), Sheet { number, ..held }, no)
            }
            2 => {
                let other = self.sheet();
                let number = held.number.wrapping_add(1);
                let account = held.account;
                (held, Sheet { number, account, ..other }, None)
            }
            _ => {
                let (held, next) = self.proposable();
                (held, next.turned(), None)
            }
        }
    }

    /// A word that is no sheet, or one word only, or 33 ins.
    fn damaged_proposal(&mut self) -> Case {
        let (mut held, next) = self.proposable();
        if self.random.chance(30) {
            let payment = Payment { lock: self.lock(), amount: 0, end: self.number() };
            held.ins.resize(MOST, payment);
            let mut bytes = held.write();
            bytes[13] += 1;
            bytes.splice(14..14, payment.write());
            let words = [b"propose".to_vec(), digits(&held), hex::write(&bytes).into()];
            return line(&words, Some("no 1".into()));
        }
        let words = [b"propose".to_vec(), digits(&held), digits(&next)];
        self.with_damage(&words, 100, None)
    }
}

// How the lines are written.
impl Lines {
    /// The words in a line. `percent` times in a hundred a word is missing, or one that isn't the first or a name is damaged.
    fn with_damage(&mut self, words: &[Vec<u8>], percent: usize, known: Option<String>) -> Case {
        if !self.random.chance(percent) {
            return self.written_otherwise(line(words, known));
        }
        let mut words = words.to_vec();
        if self.random.chance(15) {
            words.truncate(1 + self.random.below(words.len() - 1));
        } else {
            let first = if words[0] == b"change" { 2 } else { 1 };
            let place = first + self.random.below(words.len() - first);
            let word = &mut words[place];
            match self.random.below(5) {
                0 => word.truncate(2 * (1 + self.random.below(word.len() / 2 - 1))),
                1 => word.truncate(word.len() - 2),
                2 => word.extend(b"00"),
                3 => {
                    let length = 1 + self.random.below(60);
                    word.extend(hex::write(&self.random.bytes(length)).bytes());
                }
                _ => self.spoil_digits(word),
            }
        }
        line(&words, Some("no 1".into()))
    }

    /// Makes the digits odd in number, or one of them another byte.
    fn spoil_digits(&mut self, word: &mut Vec<u8>) {
        if self.random.chance(30) {
            word.pop();
            return;
        }
        let other = loop {
            let byte = self.random.number() as u8;
            if !byte.is_ascii_hexdigit() && byte != b' ' && byte != b'\n' {
                break byte;
            }
        };
        // The last digit stays, so that no line ends in a carriage return.
        let place = self.place(word.len() - 1);
        word[place] = other;
    }

    /// Sometimes with capital digits, more spaces or a word too many, which are of no matter.
    fn written_otherwise(&mut self, case: Case) -> Case {
        let Case { mut line, known } = case;
        match self.random.below(30) {
            0 | 1 => {
                let names = if line.starts_with(b"change") { 2 } else { 1 };
                for digits in line.split_mut(|byte| *byte == b' ').skip(names) {
                    for digit in digits {
                        if self.random.chance(70) {
                            digit.make_ascii_uppercase();
                        }
                    }
                }
            }
            2 => {
                let spaces = 1 + self.random.below(3);
                let parted: Vec<&[u8]> = line.split(|byte| *byte == b' ').collect();
                let between = b" ".repeat(spaces);
                line = [&between[..], &parted.join(&between[..])].concat();
                if self.random.chance(50) {
                    line.extend(between);
                }
            }
            3 => line.extend(self.random.one_of(&[&b" 00"[..], b" x", b" \xff\x00", b" read 00"])),
            _ => {}
        }
        Case { line, known }
    }
}

/// `held` with `payment` offered, its amount out of theirs if that covers it.
fn offer(held: &Sheet, payment: Payment) -> Sheet {
    Sheet {
        number: held.number + 1,
        theirs: held.theirs.wrapping_sub(payment.amount),
        ins: [&[payment][..], &held.ins].concat(),
        ..held.clone()
    }
}

/// `read` with all bytes of a sheet, and others after them.
fn whole(sheet: &Sheet, after: &[u8]) -> Case {
    let bytes = sheet.write();
    let known = format!("sheet {} {}", bytes.len(), hex::write(&bytes));
    let word = hex::write(&[&bytes, after].concat());
    line(&[b"read".to_vec(), word.into()], Some(known))
}

fn line(words: &[Vec<u8>], known: Option<String>) -> Case {
    Case { line: words.join(&b' '), known }
}

fn digits(sheet: &Sheet) -> Vec<u8> {
    hex::write(&sheet.write()).into()
}

#[cfg(test)]
mod tests {
    use super::*;
    use crate::refusal::Refusal;
    use crate::sheets;
    use std::collections::BTreeSet;

    #[test]
    fn known_answers_are_given() {
        let mut known = 0;
        for case in cases(1, 400) {
            let answer = sheets::answer(&case.line);
            if let Some(expected) = case.known {
                assert_eq!(answer, expected, "{}", case.line.escape_ascii());
                known += 1;
            }
        }
        assert!(known > 3000, "only {known} are known");
    }

    #[test]
    fn one_seed_one_sequence() {
        let lines = |seed| cases(seed, 20).collect::<Vec<Case>>();
        assert_eq!(lines(1), lines(1));
        assert_ne!(lines(1), lines(2));
    }

    #[test]
    fn no_line_has_a_newline_or_ends_in_a_carriage_return() {
        for case in cases(1, 400) {
            assert!(!case.line.contains(&b'\n') && !case.line.ends_with(b"\r"));
        }
    }

    #[test]
    fn sheets_are_empty_and_full_and_have_locks_twice() {
        let mut lines = Lines::from_seed(1);
        let mut lengths = BTreeSet::new();
        let mut twice = 0;
        for _ in 0..2000 {
            let sheet = lines.sheet();
            lengths.insert((true, sheet.ins.len()));
            lengths.insert((false, sheet.outs.len()));
            let locks: BTreeSet<_> = sheet.ins.iter().map(|payment| payment.lock).collect();
            twice += usize::from(locks.len() < sheet.ins.len());
        }
        assert_eq!(lengths.len(), 2 * (MOST + 1));
        assert!(twice > 100, "only {twice}");
    }

    /// Refusals with one number and several reasons: each comes up.
    #[test]
    fn every_reason_comes_up() {
        let mut lines = Lines::from_seed(1);
        for (name, change) in NAMES {
            let mut reasons = BTreeSet::new();
            for _ in 0..3000 {
                let (held, payment) = lines.asked(change);
                let payments = match change {
                    Change::Offered | Change::Getting | Change::GivingUp => &held.ins,
                    _ => &held.outs,
                };
                let full = payments.len() == MOST;
                let place = payments.iter().position(|other| other.lock == payment.lock);
                let reason = match apply(&held, change, &payment) {
                    Ok(_) if place == Some(0) => "taken: the first",
                    Ok(_) if place == Some(MOST - 1) => "taken: the last of 32",
                    Ok(_) if place.is_some() => "taken: another",
                    Ok(next) if next.ins.len().max(next.outs.len()) == MOST => "taken: the 32nd",
                    Ok(_) => "taken",
                    Err(Refusal::TooLarge) if held.number < LIMIT => "10: money",
                    Err(Refusal::TooLarge) => "10: number",
                    Err(Refusal::NotCovered) if full => "6: 32 stand",
                    Err(Refusal::NotCovered) => "6: not covered",
                    Err(Refusal::LockUsed) if full => "5: 32 stand",
                    Err(Refusal::LockUsed) => "5",
                    Err(_) => "4",
                };
                reasons.insert(reason);
            }
            let expected = match change {
                Change::Offered | Change::PassingOn => BTreeSet::from([
                    "taken",
                    "taken: the 32nd",
                    "5",
                    "5: 32 stand",
                    "6: not covered",
                    "6: 32 stand",
                    "10: number",
                ]),
                _ => BTreeSet::from([
                    "taken: the first",
                    "taken: another",
                    "taken: the last of 32",
                    "4",
                    "10: money",
                    "10: number",
                ]),
            };
            assert_eq!(reasons, expected, "{name}");
        }
    }

    #[test]
    fn every_kind_of_proposal_is_what_it_says() {
        let mut lines = Lines::from_seed(1);
        for _ in 0..100 {
            let proposals = [
                lines.result(),
                lines.result_with_a_field_changed(),
                lines.result_swapped(),
                lines.added_at_the_end(),
                lines.offer_not_covered(),
                lines.offer_whose_lock_stands(),
                lines.result_elsewhere(),
                lines.taken_off_at_a_place(),
                lines.wrapped(),
                lines.two_changes(),
                lines.other_pair(),
            ];
            for (held, proposed, known) in proposals {
                let words = [b"propose".to_vec(), digits(&held), digits(&proposed)];
                let case = line(&words, known);
                let answer = sheets::answer(&case.line);
                assert!(case.known.is_none_or(|known| known == answer), "{held:?} {proposed:?}");
            }
        }
    }
}
