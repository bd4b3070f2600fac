//! What a node does when it looks at the register.

use crate::conduct::Conduct;
use crate::entry::{Dispute, Look, Word};
use crate::node::{Account, Act, Node, Shown};
use crate::record::Record;
use crate::refusal::Refusal;
use crate::sha256;
use crate::sheet::{Key, Payment, Sheet};

impl Look {
    pub fn disputes(&self, account: u32) -> impl Iterator<Item = &Dispute> {
        self.words.iter().filter_map(move |word| match word {
            Word::Dispute(dispute) if dispute.account == account => Some(dispute),
            _ => None,
        })
    }

    fn keys(&self) -> impl Iterator<Item = (u32, Key)> {
        self.words.iter().filter_map(|word| match word {
            Word::Key { account, key, .. } => Some((*account, *key)),
            Word::Dispute(_) => None,
        })
    }

    fn is_open(&self, dispute: &Dispute) -> bool {
        self.tick < dispute.until
    }
}

impl Node {
    pub(crate) fn look(&mut self, look: &Look) -> Result<Vec<Act>, Refusal> {
        let earlier = self.looked.is_some_and(|looked| look.tick < looked);
        Refusal::Unreadable.unless(!earlier)?;
        self.looked = Some(look.tick);
        let mut acts = self.take_keys(look);
        for account in 0..self.accounts.len() {
            acts.extend(self.look_after(account, look));
            acts.extend(self.show_keys(account, look));
        }
        Ok(acts)
    }

    fn take_keys(&mut self, look: &Look) -> Vec<Act> {
        let mut acts = Vec::new();
        for (_, key) in look.keys() {
            if !self.keys.contains_key(&sha256(&key)) {
                let record = Record::Key(key);
                self.take_in(&record);
                acts.push(Act::Record(record));
            }
        }
        if !acts.is_empty() {
            acts.push(Act::Sync);
        }
        acts
    }

    /// Shows the held sheet of the account if there is reason to.
    fn look_after(&mut self, place: usize, look: &Look) -> Option<Act> {
        let freezes = self.conduct != Conduct::OpeningDoesNotFreeze;
        let delay = self.terms.delay;
        let disputes: Vec<&Dispute> = look.disputes(place as u32).collect();
        let account = &mut self.accounts[place];
        account.seen |= !disputes.is_empty();
        account.on_its_way =
            account.on_its_way.filter(|shown| !shown.has_arrived(look, delay, &disputes));
        if account.on_its_way.is_some() {
            return None;
        }
        let is_older =
            |dispute: &&Dispute| look.is_open(dispute) && dispute.number < account.held.number;
        let answers = disputes.iter().copied().any(|dispute| is_older(&dispute));
        let opens = disputes.is_empty() && account.has_past_end(look.tick);
        account.opened |= opens && freezes;
        if !answers && !opens {
            return None;
        }
        account.on_its_way = Some(Shown { number: account.held.number, tick: look.tick });
        Some(Act::ShowSheet(account.held.clone()))
    }

    /// Shows the keys of ins that end soon and aren't in the register yet.
    fn show_keys(&self, place: usize, look: &Look) -> Vec<Act> {
        let mut shown: Vec<Key> = Vec::new();
        let account = &self.accounts[place];
        for payment in account.sheets_that_may_count().flat_map(|sheet| &sheet.ins) {
            let Some(key) = self.keys.get(&payment.lock) else { continue };
            let is_there =
                look.keys().any(|(shown_for, other)| shown_for == place as u32 && other == *key);
            if self.is_near(payment, look.tick) && !is_there && !shown.contains(key) {
                shown.push(*key);
            }
        }
        shown.into_iter().map(|key| Act::ShowKey(place as u8, key)).collect()
    }

    fn is_near(&self, payment: &Payment, tick: u32) -> bool {
        let [tick, look, delay] = [tick, self.terms.look, self.terms.delay].map(u64::from);
        let ahead = match self.conduct {
            Conduct::KeysShownLate => delay,
            _ => 2 * look + 2 * delay,
        };
        u64::from(payment.end) < tick + ahead
    }
}

impl Account {
    /// Whether a payment that may come to count has an end that is past.
    fn has_past_end(&self, tick: u32) -> bool {
        let payments = |sheet: &Sheet| [sheet.ins.clone(), sheet.outs.clone()].concat();
        self.sheets_that_may_count().flat_map(payments).any(|payment| payment.end < tick)
    }
}

impl Shown {
    /// Whether the sheet is no longer on its way.
    fn has_arrived(&self, look: &Look, delay: u32, disputes: &[&Dispute]) -> bool {
        let late = u64::from(look.tick) > u64::from(self.tick) + u64::from(delay);
        late || disputes
            .iter()
            .any(|dispute| !look.is_open(dispute) || dispute.number >= self.number)
    }
}
