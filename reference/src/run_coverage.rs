//! How often runs came to what they can come to.

use crate::entry::{Entry, Look};
use crate::node::{Act, Node};
use crate::record::Record;
use crate::run_steps::{Between, Stop};
use crate::sheet::{MOST, Sheet};
use crate::terms::Terms;
use std::collections::BTreeMap;

/// The kinds of lines, and the refusals that can come. A number at the limit takes 4,294,967,295 sheets,
/// so that no run comes to the refusal of a call by 10.
const ROWS: [(&str, &[u8]); 10] = [
    ("sheet alone", &[1, 2, 3, 4, 5, 6, 8]),
    ("sheet with its signature", &[1, 2, 3, 4, 5, 6, 8]),
    ("signature alone", &[1, 2, 4]),
    ("key", &[1]),
    ("pass", &[1, 2, 3, 4, 5, 6, 7]),
    ("pay", &[1, 2, 3, 4, 8]),
    ("get", &[1, 2, 3, 4, 8]),
    ("give up", &[1, 2, 3, 4, 8, 9]),
    ("tick", &[1, 10]),
    ("other", &[1]),
];

/// What a run should come to.
const REACHED: [&str; 43] = [
    "offered, alone",
    "offered, with its signature",
    "passing on",
    "paying",
    "getting, proposed",
    "getting, called for",
    "returned",
    "giving up",
    "giving up what was passed on",
    "a signature back",
    "a signature back with the sheet again",
    "a key that is new",
    "a key that is known",
    "a sheet with 32 ins",
    "a sheet with 32 outs",
    "a sheet with 32 ins and 32 outs",
    "money at the limit",
    "an end at the limit",
    "a look at the limit",
    "a look that is late",
    "a look at the same tick",
    "a first look after a start",
    "a look with a dispute",
    "a look with a dispute that has ended",
    "a look with two disputes of one account",
    "a look that tells new keys",
    "a sheet shown in answer",
    "a sheet shown that opens a dispute",
    "a sheet shown again",
    "nothing shown, since a sheet is on its way",
    "a key shown",
    "a key shown for an in of next",
    "a key shown in a frozen account",
    "a stop at the end of the input",
    "a stop within a line",
    "a stop by a kill",
    "a start from a whole file",
    "a start that cuts the file back",
    "a start from a file with another byte",
    "a start with other terms",
    "a start refused: damaged",
    "a start refused: other accounts",
    "a start refused: terms",
];

#[derive(Default)]
pub struct Coverage {
    pub lines: usize,
    answers: [[usize; 11]; ROWS.len()],
    reached: BTreeMap<&'static str, usize>,
}

impl Coverage {
    fn note(&mut self, what: &'static str) {
        debug_assert!(REACHED.contains(&what), "{what}");
        *self.reached.entry(what).or_default() += 1;
    }

    fn note_if(&mut self, what: &'static str, holds: bool) {
        if holds {
            self.note(what);
        }
    }

    pub fn terms(&mut self, terms: &Terms) {
        let at_limit = terms.deposits.iter().any(|(own, theirs)| own + theirs == u32::MAX);
        self.note_if("money at the limit", at_limit);
    }

    /// A line and its answer, by the last line of it.
    pub fn line(&mut self, line: &[u8], answer: &str) {
        self.lines += 1;
        let last = answer.lines().last().unwrap_or_default();
        let number = last.strip_prefix("no ").and_then(|number| number.parse().ok()).unwrap_or(0);
        self.answers[row(line)][number] += 1;
    }

    pub fn stopped(&mut self, stop: &Stop) {
        self.note_if("a stop by a kill", stop.killed);
        self.note_if("a stop within a line", stop.last_line.is_some());
        self.note_if("a stop at the end of the input", !stop.killed && stop.last_line.is_none());
    }

    /// A start that is taken, from a file with `found` bytes, that has `left` afterwards.
    pub fn started(&mut self, between: &Between, found: usize, left: usize) {
        self.note_if("a start that cuts the file back", left < found);
        match between {
            Between::Nothing => self.note("a start from a whole file"),
            Between::Damage(..) => self.note("a start from a file with another byte"),
            Between::Terms(_) => self.note("a start with other terms"),
            Between::Cut(_) | Between::Append(_) => {}
        }
    }

    pub fn refused(&mut self, message: &str) {
        self.note_if("a start refused: damaged", message.ends_with(": damaged"));
        let others = message.ends_with(": not the accounts of terms");
        self.note_if("a start refused: other accounts", others);
        self.note_if("a start refused: terms", message.contains("/terms"));
    }

    /// An entry that was taken.
    pub fn taken(&mut self, before: &Node, entry: &Entry, acts: &[Act], after: &Node) {
        match entry {
            Entry::Proposal { account, signature, .. } => {
                self.proposal(before, *account as usize, signature.is_some(), acts);
            }
            Entry::Signature { .. } => self.note("a signature back"),
            Entry::Key(_) if acts.is_empty() => self.note("a key that is known"),
            Entry::Key(_) => self.note("a key that is new"),
            Entry::Pass(_) => self.note("passing on"),
            Entry::Pay { .. } => self.note("paying"),
            Entry::Get { .. } => self.note("getting, called for"),
            Entry::GiveUp { lock, .. } => {
                self.note("giving up");
                self.note_if("giving up what was passed on", before.passed_on.contains_key(lock));
            }
            Entry::Look(look) => self.look(before, look, acts, after),
        }
        for act in acts {
            if let Act::Record(Record::Signed(sheet)) = act {
                self.sheet(sheet);
            }
        }
    }

    fn proposal(&mut self, before: &Node, account: usize, signed: bool, acts: &[Act]) {
        let held = &before.accounts[account].held;
        let Some(Act::Record(Record::Signed(sheet))) = acts.first() else {
            self.note("a signature back with the sheet again");
            return;
        };
        let change = match (sheet.ins.len(), sheet.outs.len()) {
            (ins, _) if ins > held.ins.len() && signed => "offered, with its signature",
            (ins, _) if ins > held.ins.len() => "offered, alone",
            (ins, _) if ins < held.ins.len() => "getting, proposed",
            _ => "returned",
        };
        self.note(change);
    }

    fn sheet(&mut self, sheet: &Sheet) {
        let (ins, outs) = (sheet.ins.len() == MOST, sheet.outs.len() == MOST);
        self.note_if("a sheet with 32 ins", ins);
        self.note_if("a sheet with 32 outs", outs);
        self.note_if("a sheet with 32 ins and 32 outs", ins && outs);
        let mut payments = sheet.ins.iter().chain(&sheet.outs);
        self.note_if("an end at the limit", payments.any(|payment| payment.end == u32::MAX));
    }

    fn look(&mut self, before: &Node, look: &Look, acts: &[Act], after: &Node) {
        self.note_if("a look at the limit", look.tick == u32::MAX);
        self.note_if("a first look after a start", before.looked.is_none());
        if let Some(looked) = before.looked {
            self.note_if("a look at the same tick", look.tick == looked);
            self.note_if("a look that is late", look.tick - looked > before.terms.look);
        }
        let recorded = acts.iter().any(|act| matches!(act, Act::Record(_)));
        self.note_if("a look that tells new keys", recorded);
        for place in 0..after.accounts.len() {
            self.look_at(before, look, acts, place);
        }
    }

    fn look_at(&mut self, before: &Node, look: &Look, acts: &[Act], place: usize) {
        let disputes: Vec<_> = look.disputes(place as u32).collect();
        let account = &before.accounts[place];
        self.note_if("a look with a dispute", !disputes.is_empty());
        self.note_if("a look with two disputes of one account", disputes.len() > 1);
        let ended = disputes.iter().any(|dispute| dispute.until <= look.tick);
        self.note_if("a look with a dispute that has ended", ended);
        let mut shown = false;
        for act in acts {
            match act {
                Act::ShowSheet(sheet) if usize::from(sheet.account) == place => {
                    shown = true;
                    let opens = disputes.is_empty();
                    self.note_if("a sheet shown that opens a dispute", opens);
                    self.note_if("a sheet shown in answer", !opens);
                    self.note_if("a sheet shown again", account.on_its_way.is_some());
                }
                Act::ShowKey(other, key) if usize::from(*other) == place => {
                    self.note("a key shown");
                    let frozen = account.seen || account.opened;
                    self.note_if("a key shown in a frozen account", frozen);
                    let lock = crate::sha256(key);
                    let on_held = account.held.ins.iter().any(|payment| payment.lock == lock);
                    self.note_if("a key shown for an in of next", !on_held);
                }
                _ => {}
            }
        }
        let older = disputes
            .iter()
            .any(|dispute| look.tick < dispute.until && dispute.number < account.held.number);
        let waits = !shown && older;
        self.note_if("nothing shown, since a sheet is on its way", waits);
    }
}

/// The kind of a line: by its first word, and for a message by its first byte.
fn row(line: &[u8]) -> usize {
    let words: Vec<&[u8]> =
        line.split(|byte| b" \n".contains(byte)).filter(|word| !word.is_empty()).collect();
    let name = match *words {
        [name @ (b"pass" | b"pay" | b"get" | b"tick"), ..] => str::from_utf8(name).unwrap_or(""),
        [b"give", ..] => "give up",
        [_, message, ..] if message.starts_with(b"01") && words.len() > 2 => {
            "sheet with its signature"
        }
        [_, message, ..] if message.starts_with(b"01") => "sheet alone",
        [_, message, ..] if message.starts_with(b"02") => "signature alone",
        [_, message, ..] if message.starts_with(b"03") => "key",
        _ => "other",
    };
    ROWS.iter().position(|(row, _)| *row == name).unwrap_or(ROWS.len() - 1)
}

impl Coverage {
    /// What never came and can come, or came and can't.
    pub fn wrong(&self) -> Vec<String> {
        let mut wrong = Vec::new();
        for ((row, refusals), counts) in ROWS.iter().zip(&self.answers) {
            for (number, count) in counts.iter().enumerate() {
                let possible = match number {
                    0 => *row != "other",
                    _ => refusals.contains(&(number as u8)),
                };
                match (possible, *count) {
                    (true, 0) => wrong.push(format!("{row}: {} never came", name(number))),
                    (false, 1..) => wrong.push(format!("{row}: {} came", name(number))),
                    _ => {}
                }
            }
        }
        let never = REACHED.iter().filter(|what| !self.reached.contains_key(*what));
        wrong.extend(never.map(|what| format!("never: {what}")));
        wrong
    }

    pub fn table(&self) -> String {
        let row = |name: &str, cells: Vec<String>| {
            let cells: String = cells.iter().map(|cell| format!(" {cell:>7}")).collect();
            format!("{name:<24}{cells}\n")
        };
        let mut table = row("", (0..11).map(name).collect());
        for ((kind, refusals), counts) in ROWS.iter().zip(&self.answers) {
            let cell = |(number, count): (usize, &usize)| match count {
                0 if number > 0 && !refusals.contains(&(number as u8)) => "-".into(),
                _ => count.to_string(),
            };
            table += &row(kind, counts.iter().enumerate().map(cell).collect());
        }
        for what in REACHED {
            table += &format!("{:>9}  {what}\n", self.reached.get(what).unwrap_or(&0));
        }
        table
    }
}

fn name(number: usize) -> String {
    if number == 0 { "ok".into() } else { format!("no {number}") }
}
