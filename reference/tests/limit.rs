//! A sheet whose number is the limit, which no run comes to.

use reference::change::{Change, apply};
use reference::conduct::Conduct;
use reference::entry::{Entry, Look, Pass};
use reference::message::Signature;
use reference::node::Node;
use reference::refusal::Refusal;
use reference::sha256;
use reference::sheet::{Payment, Sheet};
use reference::start::Start;
use reference::terms::Terms;

const KEY: [u8; 32] = [7; 32];

fn payment(key: &[u8; 32], end: u32) -> Payment {
    Payment { lock: sha256(key), amount: 1, end }
}

/// Account 0 has two ins, account 1 an out, and the numbers of both are the limit.
fn node() -> Node {
    let deposits = vec![(10, 10); 2];
    let terms = Terms { gap: 110, window: 50, delay: 5, look: 13, deposits };
    let mut node = Start::read(&terms, Conduct::Rules, &[]).expect("an empty file").node;
    node.enter(&Entry::Look(Look { tick: 0, words: Vec::new() })).unwrap();
    node.enter(&Entry::Key(KEY)).unwrap();
    let ins = vec![payment(&KEY, 300), payment(&[8; 32], 300)];
    for (account, ins, outs) in [(0, ins, Vec::new()), (1, Vec::new(), vec![payment(&KEY, 190)])] {
        let number = u32::MAX;
        let held = &mut node.accounts[account].held;
        *held = Sheet { number, ins, outs, ..held.clone() };
    }
    node
}

#[test]
fn calls_are_refused_by_10_after_all_else() {
    let lock = sha256(&KEY);
    let other = sha256(&[8; 32]);
    let pass = Pass { from: 0, to: 1, lock: other, amount: 1, end: 190 };
    for (entry, refusal) in [
        (Entry::Pass(pass), Refusal::TooLarge),
        (Entry::Pass(Pass { end: 191, ..pass }), Refusal::EndTooNear),
        (Entry::Pay { account: 1, lock }, Refusal::TooLarge),
        (Entry::Pay { account: 1, lock: other }, Refusal::Mismatch),
        (Entry::Get { account: 0, lock }, Refusal::TooLarge),
        (Entry::Get { account: 0, lock: other }, Refusal::KeyMissing),
        (Entry::GiveUp { account: 0, lock: other }, Refusal::TooLarge),
        (Entry::GiveUp { account: 0, lock }, Refusal::KeyKnown),
    ] {
        assert_eq!(node().enter(&entry), Err(refusal), "{entry:?}");
    }
}

#[test]
fn proposals_are_refused_by_4() {
    let held = Sheet { number: 6, ..node().accounts[0].held.clone() };
    let offered = apply(&held, Change::Offered, &payment(&[9; 32], 300)).unwrap();
    for number in [0, 1, u32::MAX - 1, u32::MAX] {
        for signature in [None, Some(Signature { account: 0, number })] {
            let sheet = Sheet { number, ..offered.turned() };
            let entry = Entry::Proposal { account: 0, sheet, signature };
            assert_eq!(node().enter(&entry), Err(Refusal::Mismatch), "{number}");
        }
    }
}
