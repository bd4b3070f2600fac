//! The node: what it keeps, and what it does with messages and calls. Looks are in `looking`.

use crate::change::{Change, apply, recognise};
use crate::conduct::Conduct;
use crate::entry::{Entry, Pass};
use crate::message::{Message, Signature};
use crate::record::Record;
use crate::refusal::Refusal;
use crate::sha256;
use crate::sheet::{Key, Lock, MOST, Payment, Sheet};
use crate::terms::{MOST_ACCOUNTS, Terms};
use std::collections::HashMap;

/// What a node has with one neighbour.
#[derive(Clone, Debug, PartialEq, Eq)]
pub struct Account {
    pub held: Sheet,
    pub next: Option<Sheet>,
    /// Whether a dispute was seen, and whether the node opened one, since its start.
    pub seen: bool,
    pub opened: bool,
    pub on_its_way: Option<Shown>,
}

/// A sheet that was shown to the register at a tick.
#[derive(Clone, Copy, Debug, PartialEq, Eq)]
pub struct Shown {
    pub number: u32,
    pub tick: u32,
}

#[derive(Clone, Debug)]
pub struct Node {
    pub terms: Terms,
    pub conduct: Conduct,
    pub accounts: Vec<Account>,
    /// The accounts that a lock was passed on from and to.
    pub passed_on: HashMap<Lock, (u8, u8)>,
    pub keys: HashMap<Lock, Key>,
    /// The tick of the last look since the start.
    pub looked: Option<u32>,
}

/// What the program does for an entry, one after the other.
#[derive(Clone, Debug, PartialEq, Eq)]
pub enum Act {
    Record(Record),
    Sync,
    /// To the neighbour of the account, in one line.
    Send(u8, Vec<Message>),
    /// To the register.
    ShowSheet(Sheet),
    ShowKey(u8, Key),
}

impl Account {
    fn new(first: &Sheet) -> Account {
        Account { held: first.clone(), next: None, seen: false, opened: false, on_its_way: None }
    }

    pub fn sheets_that_may_count(&self) -> impl Iterator<Item = &Sheet> {
        [&self.held].into_iter().chain(&self.next)
    }
}

fn find<'a>(payments: &'a [Payment], lock: &Lock) -> Option<&'a Payment> {
    payments.iter().find(|payment| payment.lock == *lock)
}

fn stands(payments: &[Payment], lock: &Lock) -> bool {
    find(payments, lock).is_some()
}

/// A sheet of the node's own and its signature under it.
fn signed(sheet: &Sheet) -> Act {
    let signature = Signature { account: sheet.account, number: sheet.number };
    Act::Send(sheet.account, vec![Message::Sheet(sheet.clone()), Message::Signature(signature)])
}

// The state.
impl Node {
    /// A node without its first sheets.
    pub fn new(terms: &Terms, conduct: Conduct) -> Node {
        Node {
            terms: terms.clone(),
            conduct,
            accounts: Vec::new(),
            passed_on: HashMap::new(),
            keys: HashMap::new(),
            looked: None,
        }
    }

    /// What a record, which a node could have written here, makes of it.
    pub fn take_in(&mut self, record: &Record) {
        match record {
            Record::SignedByBoth(sheet) if sheet.number == 0 => {
                self.accounts.push(Account::new(sheet));
            }
            Record::SignedByBoth(sheet) => {
                let account = &mut self.accounts[usize::from(sheet.account)];
                account.held = sheet.clone();
                account.next = None;
            }
            Record::Signed(sheet) => {
                self.accounts[usize::from(sheet.account)].next = Some(sheet.clone());
            }
            Record::PassedOn { lock, from, to } => {
                self.passed_on.insert(*lock, (*from, *to));
            }
            Record::Key(key) => {
                self.keys.entry(sha256(key)).or_insert(*key);
            }
        }
    }

    pub fn is_frozen(&self, account: &Account) -> bool {
        let unlooked = self.looked.is_none() && self.conduct != Conduct::SignsBeforeLooking;
        unlooked || account.seen || account.opened
    }

    pub fn in_stands(&self, lock: &Lock) -> bool {
        self.sheets().any(|sheet| stands(&sheet.ins, lock))
    }

    pub fn out_stands(&self, lock: &Lock) -> bool {
        self.sheets().any(|sheet| stands(&sheet.outs, lock))
    }

    fn sheets(&self) -> impl Iterator<Item = &Sheet> {
        self.accounts.iter().flat_map(Account::sheets_that_may_count)
    }

    fn is_past(&self, end: u32) -> bool {
        self.looked.is_some_and(|looked| end < looked)
    }

    /// What is sent again at a start.
    pub fn send_again(&self) -> Vec<Act> {
        self.sheets().filter(|sheet| sheet.number > 0).map(signed).collect()
    }
}

// Entries.
impl Node {
    /// The acts of an entry, in their order; afterwards the node is as they make it. A refused entry changes nothing.
    pub fn enter(&mut self, entry: &Entry) -> Result<Vec<Act>, Refusal> {
        let acts = match entry {
            Entry::Proposal { account, sheet, signature: None } => {
                self.proposal(*account, sheet)?
            }
            Entry::Proposal { account, sheet, signature: Some(signature) } => {
                self.signed_proposal(*account, sheet, signature)?
            }
            Entry::Signature { account, signature } => self.signature(*account, signature)?,
            Entry::Key(key) => self.key(key),
            Entry::Pass(pass) => self.pass(pass)?,
            Entry::Pay { account, lock } => self.pay(*account, lock)?,
            Entry::Get { account, lock } => self.get(*account, lock)?,
            Entry::GiveUp { account, lock } => self.give_up(*account, lock)?,
            Entry::Look(look) => return self.look(look),
        };
        for act in &acts {
            if let Act::Record(record) = act {
                self.take_in(record);
            }
        }
        Ok(acts)
    }

    /// The account with this number, if it is there and not frozen.
    fn open(&self, account: u32) -> Result<&Account, Refusal> {
        let account = self.accounts.get(account as usize).ok_or(Refusal::NotOpen)?;
        Refusal::NotOpen.unless(!self.is_frozen(account))?;
        Ok(account)
    }

    /// Likewise, and no next is under way.
    fn quiet(&self, account: u32) -> Result<&Account, Refusal> {
        let account = self.open(account)?;
        Refusal::UnderWay.unless(account.next.is_none())?;
        Ok(account)
    }
}

// Messages.
impl Node {
    fn proposal(&self, account: u32, sheet: &Sheet) -> Result<Vec<Act>, Refusal> {
        let held = &self.open(account)?.held;
        sender_account(sheet.account)?;
        let proposed = Sheet { account: held.account, ..sheet.turned() };
        self.quiet(account)?;
        self.judge(held, &proposed)?;
        let signature = Signature { account: held.account, number: proposed.number };
        Ok(vec![
            Act::Record(Record::Signed(proposed)),
            Act::Sync,
            Act::Send(signature.account, vec![Message::Signature(signature)]),
        ])
    }

    fn signed_proposal(
        &self,
        account: u32,
        sheet: &Sheet,
        under: &Signature,
    ) -> Result<Vec<Act>, Refusal> {
        let Account { held, next, .. } = self.open(account)?;
        sender_account(sheet.account)?;
        sender_account(under.account)?;
        let proposed = Sheet { account: held.account, ..sheet.turned() };
        if let Some(next) = next {
            Refusal::UnderWay.unless(*next == proposed)?;
            Refusal::Mismatch.unless(under.number == next.number)?;
            return Ok(vec![Act::Record(Record::SignedByBoth(proposed)), Act::Sync]);
        }
        Refusal::Mismatch.unless(under.number == proposed.number)?;
        self.judge(held, &proposed)?;
        let signature = Signature { account: held.account, number: proposed.number };
        Ok(vec![
            Act::Record(Record::Signed(proposed.clone())),
            Act::Record(Record::SignedByBoth(proposed)),
            Act::Sync,
            Act::Send(signature.account, vec![Message::Signature(signature)]),
        ])
    }

    /// Whether the node signs what is proposed, which is in its own view, where no next is under way.
    fn judge(&self, held: &Sheet, proposed: &Sheet) -> Result<(), Refusal> {
        let (change, payment) = recognise(held, proposed).ok_or(Refusal::Mismatch)?;
        match change {
            Change::Offered => {
                let used = self.in_stands(&payment.lock);
                let used = used || self.passed_on.contains_key(&payment.lock);
                Refusal::LockUsed.unless(!used)?;
                Refusal::NotCovered.unless(payment.amount <= held.theirs)
            }
            Change::Getting => Refusal::KeyMissing.unless(self.keys.contains_key(&payment.lock)),
            _ => Ok(()),
        }
    }

    fn signature(&self, account: u32, signature: &Signature) -> Result<Vec<Act>, Refusal> {
        let account = match self.conduct {
            Conduct::SignatureInDispute if self.looked.is_some() => {
                self.accounts.get(account as usize).ok_or(Refusal::NotOpen)?
            }
            _ => self.open(account)?,
        };
        sender_account(signature.account)?;
        let next = account.next.as_ref().filter(|next| next.number == signature.number);
        let next = next.ok_or(Refusal::Mismatch)?.clone();
        let mut acts = vec![Act::Record(Record::SignedByBoth(next))];
        if self.conduct != Conduct::SignatureNotSynced {
            acts.push(Act::Sync);
        }
        Ok(acts)
    }

    fn key(&self, key: &Key) -> Vec<Act> {
        match self.keys.contains_key(&sha256(key)) {
            true => Vec::new(),
            false => vec![Act::Record(Record::Key(*key)), Act::Sync],
        }
    }
}

fn sender_account(account: u8) -> Result<(), Refusal> {
    Refusal::NotOpen.unless(usize::from(account) < MOST_ACCOUNTS)
}

// The owner's calls.
impl Node {
    fn pass(&self, pass: &Pass) -> Result<Vec<Act>, Refusal> {
        self.open(pass.from)?;
        self.open(pass.to)?;
        let from = &self.quiet(pass.from)?.held;
        let to = &self.quiet(pass.to)?.held;
        Refusal::Mismatch.unless(pass.from != pass.to)?;
        let payment = find(&from.ins, &pass.lock).ok_or(Refusal::Mismatch)?;
        let used = self.passed_on.contains_key(&pass.lock) || self.out_stands(&pass.lock);
        Refusal::LockUsed.unless(!used)?;
        let covered = pass.amount <= payment.amount && pass.amount <= to.own;
        Refusal::NotCovered.unless(covered && to.outs.len() < MOST)?;
        let gap = u64::from(pass.end) + u64::from(self.terms.gap) <= u64::from(payment.end);
        let past = self.is_past(payment.end)
            || self.is_past(pass.end) && self.conduct != Conduct::OnlyTheInsEnd;
        Refusal::EndTooNear.unless(gap && !past)?;
        let out = Payment { lock: pass.lock, amount: pass.amount, end: pass.end };
        let next = apply(to, Change::PassingOn, &out)?;
        let passed_on = Record::PassedOn { lock: pass.lock, from: from.account, to: to.account };
        let mut records = vec![passed_on, Record::Signed(next.clone())];
        if self.conduct == Conduct::SheetBeforeLock {
            records.reverse();
        }
        Ok(records.into_iter().map(Act::Record).chain([Act::Sync, signed(&next)]).collect())
    }

    fn pay(&self, account: u32, lock: &Lock) -> Result<Vec<Act>, Refusal> {
        let held = &self.quiet(account)?.held;
        let out = find(&held.outs, lock).ok_or(Refusal::Mismatch)?;
        Refusal::KeyMissing.unless(self.keys.contains_key(lock))?;
        sign(held, Change::Paying, out)
    }

    fn get(&self, account: u32, lock: &Lock) -> Result<Vec<Act>, Refusal> {
        let held = &self.quiet(account)?.held;
        let payment = find(&held.ins, lock).ok_or(Refusal::Mismatch)?;
        Refusal::KeyMissing.unless(self.keys.contains_key(lock))?;
        sign(held, Change::Getting, payment)
    }

    fn give_up(&self, account: u32, lock: &Lock) -> Result<Vec<Act>, Refusal> {
        let held = &self.quiet(account)?.held;
        let payment = find(&held.ins, lock).ok_or(Refusal::Mismatch)?;
        Refusal::KeyKnown.unless(!self.keys.contains_key(lock))?;
        Refusal::OutStands.unless(!self.out_may_count(lock))?;
        sign(held, Change::GivingUp, payment)
    }

    /// Whether the lock was passed on to an account of which held or next has an out with it.
    fn out_may_count(&self, lock: &Lock) -> bool {
        let Some((_, to)) = self.passed_on.get(lock) else { return false };
        let Account { held, next, .. } = &self.accounts[usize::from(*to)];
        let on_held = stands(&held.outs, lock);
        let on_next = next.as_ref().map(|next| stands(&next.outs, lock));
        match self.conduct {
            Conduct::GivingUpLooksAtHeld => on_held,
            Conduct::GivingUpLooksAtNext => on_next.unwrap_or(on_held),
            _ => on_held || on_next == Some(true),
        }
    }
}

/// Signs the change of `held` that the owner asked for.
fn sign(held: &Sheet, change: Change, payment: &Payment) -> Result<Vec<Act>, Refusal> {
    let next = apply(held, change, payment)?;
    let acts = [Act::Record(Record::Signed(next.clone())), Act::Sync, signed(&next)];
    Ok(acts.into())
}
