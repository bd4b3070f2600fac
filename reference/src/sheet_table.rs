//! Small lines for `sheets`, with the answers that the rules ask for worked out by hand.

use crate::case::Case;
use crate::hex;
use crate::sheet::{Payment, Sheet};

/// What an example shows, and its line with the answer.
pub struct Example {
    pub shows: &'static str,
    pub case: Case,
}

const LIMIT: u32 = u32::MAX;

/// A payment with a lock of one repeated byte: that byte, amount, end.
type Short = (u8, u32, u32);

/// The held sheet's payments: lock 02 stands on both sides.
const INS: [Short; 2] = [(1, 3, 101), (2, 4, 102)];
const OUTS: [Short; 2] = [(2, 5, 202), (3, 6, 203)];

/// One line for each change and each number that can refuse it, and for the other kinds of lines.
pub fn examples() -> Vec<Example> {
    let held = &sheet(7, 10, 20, &INS, &OUTS);
    // Its number is the limit.
    let last = &sheet(LIMIT, 10, 20, &INS, &OUTS);
    // Money that 4 more makes pass the limit.
    let rich = &sheet(7, LIMIT - 3, LIMIT - 3, &INS, &OUTS);
    let empty = "010000000700000000000000000000";

    // What the changes lead to.
    let offered = &sheet(8, 10, 0, &[(4, 20, 104), INS[0], INS[1]], &OUTS);
    let passed_on = &sheet(8, 0, 20, &INS, &[(1, 10, 204), OUTS[0], OUTS[1]]);
    let paid = &sheet(8, 10, 25, &INS, &[OUTS[1]]);
    let got = &sheet(8, 14, 20, &[INS[0]], &OUTS);
    let returned = &sheet(8, 16, 20, &INS, &[OUTS[0]]);
    let given_up = &sheet(8, 10, 23, &[INS[1]], &OUTS);

    // Proposals that no change leads to.
    let stands = &sheet(8, 10, 19, &[(2, 1, 104), INS[0], INS[1]], &OUTS);
    let not_covered = &sheet(8, 10, 20, &[(4, 21, 104), INS[0], INS[1]], &OUTS);
    let at_the_end = &sheet(8, 10, 0, &[INS[0], INS[1], (4, 20, 104)], &OUTS);
    let other_number = &sheet(9, 14, 20, &[INS[0]], &OUTS);
    let other_account = &format!("02{}", &got[2..]);

    let cut = &held[..held.len() - 2];
    let turned = sheet(7, 20, 10, &OUTS, &INS);
    let change = |name: &str, sheet: &str, payment: Short| {
        format!("change {name} {sheet} {}", hex::write(&long(&payment).write()))
    };
    let propose = |proposed: &str| format!("propose {held} {proposed}");
    let no = |number: u8| format!("no {number}");
    let is = |sheet: &str| format!("sheet {sheet}");

    let rows: Vec<(&'static str, String, String)> = vec![
        ("read: without payments", format!("read {empty}"), format!("sheet 15 {empty}")),
        ("read: 15 + 40 (2 + 2) bytes", format!("read {held}"), format!("sheet 175 {held}")),
        ("read: what follows is left", format!("read {held}00ff"), format!("sheet 175 {held}")),
        ("read: a byte is missing", format!("read {cut}"), no(1)),
        ("turn", format!("turn {held}"), is(&turned)),
        ("turn: a byte too many", format!("turn {held}00"), no(1)),
        ("offered: all of theirs", change("offered", held, (4, 20, 104)), is(offered)),
        ("offered: the lock stands", change("offered", held, (2, 1, 104)), no(5)),
        ("offered: 21 of 20", change("offered", held, (4, 21, 104)), no(6)),
        ("offered: the number", change("offered", last, (4, 20, 104)), no(10)),
        ("passing: all of own", change("passing", held, (1, 10, 204)), is(passed_on)),
        ("passing: the lock stands", change("passing", held, (3, 1, 204)), no(5)),
        ("passing: 11 of 10", change("passing", held, (1, 11, 204)), no(6)),
        ("passing: the number", change("passing", last, (1, 10, 204)), no(10)),
        ("paying: found by its lock", change("paying", held, (2, 99, 0)), is(paid)),
        ("paying: an in only", change("paying", held, (1, 3, 101)), no(4)),
        ("paying: theirs", change("paying", rich, (2, 5, 202)), no(10)),
        ("getting: found by its lock", change("getting", held, (2, 99, 0)), is(got)),
        ("getting: an out only", change("getting", held, (3, 6, 203)), no(4)),
        ("getting: own", change("getting", rich, (2, 4, 102)), no(10)),
        ("returned: the last out", change("returned", held, (3, 6, 203)), is(returned)),
        ("returned: an in only", change("returned", held, (1, 3, 101)), no(4)),
        ("returned: the number", change("returned", last, (3, 6, 203)), no(10)),
        ("giving: the first in", change("giving", held, (1, 3, 101)), is(given_up)),
        ("giving: an out only", change("giving", held, (3, 6, 203)), no(4)),
        ("giving: the number", change("giving", last, (1, 3, 101)), no(10)),
        ("no change of this name", change("keeping", held, (1, 3, 101)), no(1)),
        ("propose: offered", propose(offered), format!("offered {offered}")),
        ("propose: returned", propose(returned), format!("returned {returned}")),
        ("propose: getting", propose(got), format!("getting {got}")),
        ("propose: passing is the node's own", propose(passed_on), no(4)),
        ("propose: paying is the node's own", propose(paid), no(4)),
        ("propose: giving is the node's own", propose(given_up), no(4)),
        ("propose: an in added at the end", propose(at_the_end), no(4)),
        ("propose: getting, two numbers on", propose(other_number), no(4)),
        ("propose: getting, another account", propose(other_account), no(4)),
        ("propose: offered, the lock stands", propose(stands), no(5)),
        ("propose: offered, 21 of 20", propose(not_covered), no(6)),
        ("propose: a byte is missing", propose(cut), no(1)),
    ];
    let example = |(shows, line, known): (_, String, _)| Example {
        shows,
        case: Case { line: line.into(), known: Some(known) },
    };
    rows.into_iter().map(example).collect()
}

/// A sheet of account 1 in digits.
fn sheet(number: u32, own: u32, theirs: u32, ins: &[Short], outs: &[Short]) -> String {
    let payments = |short: &[Short]| short.iter().map(long).collect();
    let sheet = Sheet { account: 1, number, own, theirs, ins: payments(ins), outs: payments(outs) };
    hex::write(&sheet.write())
}

fn long(&(lock, amount, end): &Short) -> Payment {
    Payment { lock: [lock; 32], amount, end }
}

#[cfg(test)]
mod tests {
    use super::*;
    use crate::sheets;

    #[test]
    fn the_plain_answers_are_those_by_hand() {
        for Example { shows, case } in examples() {
            assert_eq!(Some(sheets::answer(&case.line)), case.known, "{shows}");
        }
    }

    #[test]
    fn every_change_and_every_number_is_there() {
        let all = examples();
        let there = |begin: &str, answer: &str| {
            all.iter().any(|Example { case, .. }| {
                case.line.starts_with(begin.as_bytes())
                    && case.known.as_ref().is_some_and(|known| known.starts_with(answer))
            })
        };
        for (name, change) in sheets::NAMES {
            use crate::change::Change::{Offered, PassingOn};
            let adds = [Offered, PassingOn].contains(&change);
            let numbers = if adds { &["no 5", "no 6", "no 10"][..] } else { &["no 4", "no 10"] };
            for answer in [&["sheet"], numbers].concat() {
                assert!(there(&format!("change {name} "), answer), "{name}: {answer}");
            }
        }
        for answer in ["offered", "returned", "getting", "no 1", "no 4", "no 5", "no 6"] {
            assert!(there("propose ", answer), "{answer}");
        }
    }

    #[test]
    fn the_bytes_of_one() {
        let payment = |lock: &str, rest: &str| format!("{}{rest}", lock.repeat(32));
        let held = [
            "01".into(),
            "00000007".into(),
            "0000000a".into(),
            "00000014".into(),
            "02".into(),
            payment("01", "0000000300000065"),
            payment("02", "0000000400000066"),
            "02".into(),
            payment("02", "00000005000000ca"),
            payment("03", "00000006000000cb"),
        ]
        .concat();
        let given_up = [
            "01".into(),
            "00000008".into(),
            "0000000a".into(),
            "00000017".into(),
            "01".into(),
            payment("02", "0000000400000066"),
            "02".into(),
            payment("02", "00000005000000ca"),
            payment("03", "00000006000000cb"),
        ]
        .concat();
        let line = format!("change giving {held} {}", payment("01", "0000000300000065"));
        let known = Some(format!("sheet {given_up}"));
        assert!(examples().iter().any(
            |example| example.case == Case { line: line.clone().into(), known: known.clone() }
        ));
    }
}
