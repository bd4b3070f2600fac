//! The register: disputes, keys and payouts. It counts ticks without a limit.

use crate::sha256;
use crate::sheet::{Key, Lock, Payment, Sheet};
use std::collections::HashMap;

/// The dispute of an account. It is open at ticks before `until`.
#[derive(Clone, Debug, PartialEq, Eq)]
pub struct Dispute {
    pub sheet: Sheet,
    pub until: u64,
}

/// What the register has of one account. Sheets are in the node's view.
#[derive(Clone, Debug, Default, PartialEq, Eq)]
pub struct Page {
    pub dispute: Option<Dispute>,
    /// The keys that were shown, by their locks, with the tick of the first showing.
    pub keys: HashMap<Lock, (Key, u64)>,
}

impl Page {
    /// A sheet with both signatures comes in. Whether it is now the one that is shown.
    pub fn show(&mut self, sheet: &Sheet, tick: u64, window: u32) -> bool {
        match &mut self.dispute {
            None => {
                let until = tick + u64::from(window);
                self.dispute = Some(Dispute { sheet: sheet.clone(), until });
                true
            }
            Some(dispute) if tick < dispute.until && sheet.number > dispute.sheet.number => {
                dispute.sheet = sheet.clone();
                true
            }
            Some(_) => false,
        }
    }

    pub fn show_key(&mut self, key: &Key, tick: u64) {
        self.keys.entry(sha256(key)).or_insert((*key, tick));
    }

    /// What the node gets once the dispute has ended and no key can count any more.
    pub fn payout(&self, delay: u32) -> Option<u64> {
        let Dispute { sheet, until } = self.dispute.as_ref()?;
        let counts = |payment: &&Payment| {
            let last = u64::from(payment.end).max(until + u64::from(delay));
            self.keys.get(&payment.lock).is_some_and(|(_, tick)| *tick <= last)
        };
        let ins = sheet.ins.iter().filter(counts);
        let outs = sheet.outs.iter().filter(|out| !counts(out));
        let amounts: u64 = ins.chain(outs).map(|payment| u64::from(payment.amount)).sum();
        Some(u64::from(sheet.own) + amounts)
    }

    pub fn is_settled(&self, now: u64, delay: u32) -> bool {
        self.dispute.as_ref().is_some_and(|Dispute { sheet, until }| {
            let mut payments = sheet.ins.iter().chain(&sheet.outs);
            let is_over =
                |payment: &Payment| u64::from(payment.end) < now && until + u64::from(delay) < now;
            *until <= now && payments.all(is_over)
        })
    }
}

#[cfg(test)]
mod tests {
    use super::*;

    const KEY: Key = [7; 32];

    fn sheet(number: u32) -> Sheet {
        let lock = sha256(&KEY);
        let ins = vec![Payment { lock, amount: 4, end: 9 }];
        let outs = vec![Payment { lock, amount: 2, end: 3 }];
        Sheet { account: 0, number, own: 10, theirs: 20, ins, outs }
    }

    #[test]
    fn a_higher_sheet_takes_the_place_while_the_dispute_is_open() {
        let mut page = Page::default();
        assert!(page.show(&sheet(1), 5, 3));
        assert!(!page.show(&sheet(1), 6, 3));
        assert!(page.show(&sheet(2), 7, 3));
        assert!(!page.show(&sheet(1), 7, 3));
        assert!(!page.show(&sheet(3), 8, 3));
        assert_eq!(page.dispute, Some(Dispute { sheet: sheet(2), until: 8 }));
    }

    #[test]
    fn keys_count_up_to_the_end_or_the_delay_after_the_dispute() {
        for (shown, payout) in [(9, 14), (10, 12), (5, 14), (4, 14)] {
            let mut page = Page::default();
            page.show(&sheet(1), 2, 2);
            page.show_key(&KEY, shown);
            page.show_key(&KEY, shown.saturating_sub(20) + 20);
            let out = if shown <= 5 { 0 } else { 2 };
            let payin = if shown <= 9 { 4 } else { 0 };
            assert_eq!(page.payout(1), Some(10 + payin + out), "{payout}");
        }
    }

    #[test]
    fn settled_when_nothing_can_count_any_more() {
        let mut page = Page::default();
        assert!(!page.is_settled(100, 1));
        page.show(&sheet(1), 2, 2);
        assert!(!page.is_settled(9, 1));
        assert!(page.is_settled(10, 1));
        let mut late = Page::default();
        late.show(&sheet(1), 8, 2);
        assert!(!late.is_settled(11, 1));
        assert!(late.is_settled(12, 1));
        let mut empty = Page::default();
        empty.show(&Sheet { ins: Vec::new(), outs: Vec::new(), ..sheet(0) }, 2, 2);
        assert!(!empty.is_settled(3, 1));
        assert!(empty.is_settled(4, 1));
    }
}
