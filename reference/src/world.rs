//! A node, the register and time. What neighbours do, and the order of all that happens, is free.

use crate::conduct::Conduct;
use crate::entry::{Dispute, Entry, Look, Word};
use crate::node::{Act, Node};
use crate::record::Record;
use crate::refusal::Refusal;
use crate::register::Page;
use crate::sheet::{Key, Sheet};
use crate::terms::Terms;

pub struct World {
    pub node: Node,
    pub now: u32,
    /// The tick of the node's last look, also one before a stop.
    pub looked: u32,
    pub pages: Vec<Page>,
    /// For each account the sheets that the node has signed and sent, which its neighbour may show. The first is sheet 0.
    pub signed: Vec<Vec<Sheet>>,
    /// What the node sent to the register and isn't in it.
    pub on_the_way: Vec<Sent>,
    /// The node's file, and how many of its records are synced.
    file: Vec<Record>,
    synced: usize,
}

/// Something sent to the register at a tick, for an account.
pub struct Sent {
    pub account: usize,
    pub what: Thing,
    pub tick: u32,
}

pub enum Thing {
    Sheet(Sheet),
    Key(Key),
}

impl World {
    pub fn new(terms: &Terms, conduct: Conduct) -> World {
        let firsts: Vec<Sheet> = (0..)
            .zip(&terms.deposits)
            .map(|(account, (own, theirs))| Sheet {
                account,
                number: 0,
                own: *own,
                theirs: *theirs,
                ins: Vec::new(),
                outs: Vec::new(),
            })
            .collect();
        let file: Vec<Record> = firsts.iter().cloned().map(Record::SignedByBoth).collect();
        let mut world = World {
            node: Node::new(terms, conduct),
            now: 0,
            looked: 0,
            pages: vec![Page::default(); firsts.len()],
            signed: firsts.into_iter().map(|sheet| vec![sheet]).collect(),
            on_the_way: Vec::new(),
            synced: file.len(),
            file,
        };
        world.start();
        world
    }

    /// The node takes an entry, or refuses it.
    pub fn enter(&mut self, entry: &Entry) -> Result<(), Refusal> {
        let acts = self.node.enter(entry)?;
        for act in acts {
            match act {
                Act::Record(record) => self.file.push(record),
                Act::Sync => self.synced = self.file.len(),
                Act::Send(account, _) => self.sent(account.into()),
                Act::ShowSheet(sheet) => {
                    self.send(usize::from(sheet.account), Thing::Sheet(sheet));
                }
                Act::ShowKey(account, key) => self.send(account.into(), Thing::Key(key)),
            }
        }
        Ok(())
    }

    fn send(&mut self, account: usize, what: Thing) {
        self.on_the_way.push(Sent { account, what, tick: self.now });
    }

    /// The neighbour has the node's signature under what may count.
    fn sent(&mut self, account: usize) {
        for sheet in self.node.accounts[account].sheets_that_may_count() {
            let signed = &mut self.signed[account];
            if !signed.contains(sheet) {
                signed.push(sheet.clone());
            }
        }
    }

    /// The node stops within an entry, after it wrote `written` of its records, and starts again.
    pub fn stop_within(&mut self, entry: &Entry, written: usize) {
        let acts = self.node.enter(entry).unwrap_or_default();
        let records = acts.into_iter().filter_map(|act| match act {
            Act::Record(record) => Some(record),
            _ => None,
        });
        self.file.extend(records.take(written));
        self.start();
    }

    /// The machine stops, with `kept` of the records that weren't synced, and the node starts again.
    pub fn stop(&mut self, kept: usize) {
        self.file.truncate(self.synced + kept);
        self.start();
    }

    fn start(&mut self) {
        let mut node = Node::new(&self.node.terms, self.node.conduct);
        self.file.iter().for_each(|record| node.take_in(record));
        self.node = node;
        self.synced = self.file.len();
        (0..self.pages.len()).for_each(|account| self.sent(account));
    }

    pub fn look(&mut self) {
        let mut words = Vec::new();
        for (account, page) in (0..).zip(&self.pages) {
            words.extend(page.dispute.as_ref().map(|dispute| {
                let until = dispute.until as u32;
                Word::Dispute(Dispute { account, number: dispute.sheet.number, until })
            }));
            let keys = page.keys.values();
            words.extend(keys.map(|(key, tick)| Word::Key {
                account,
                key: *key,
                tick: *tick as u32,
            }));
        }
        let look = Entry::Look(Look { tick: self.now, words });
        self.enter(&look).expect("ticks never go back");
        self.looked = self.now;
    }

    /// Something that was sent comes in.
    pub fn arrive(&mut self, place: usize) {
        let Sent { account, what, .. } = self.on_the_way.remove(place);
        match what {
            Thing::Sheet(sheet) => self.show(account, &sheet),
            Thing::Key(key) => self.show_key(account, &key),
        }
    }

    pub fn show(&mut self, account: usize, sheet: &Sheet) {
        self.pages[account].show(sheet, self.now.into(), self.node.terms.window);
    }

    pub fn show_key(&mut self, account: usize, key: &Key) {
        self.pages[account].show_key(key, self.now.into());
    }

    /// Whether the node must look before the tick ends.
    pub fn must_look(&self) -> bool {
        self.now >= self.looked + self.node.terms.look
    }

    /// Something that must come in before the tick ends.
    pub fn must_arrive(&self) -> Option<usize> {
        let delay = self.node.terms.delay;
        self.on_the_way.iter().position(|sent| self.now >= sent.tick + delay)
    }

    pub fn tick(&mut self) {
        assert!(!self.must_look() && self.must_arrive().is_none());
        self.now += 1;
    }

    /// What an account pays out to the node, if it is settled.
    pub fn payout(&self, account: usize) -> Option<u64> {
        let delay = self.node.terms.delay;
        let page = &self.pages[account];
        if page.is_settled(self.now.into(), delay) {
            return page.payout(delay);
        }
        let ours = &self.node.accounts[account];
        let empty = ours.held.ins.is_empty() && ours.held.outs.is_empty() && ours.next.is_none();
        let quiet = page.dispute.is_none()
            && self
                .on_the_way
                .iter()
                .all(|sent| sent.account != account || matches!(sent.what, Thing::Key(_)));
        (empty && quiet).then_some(ours.held.own.into())
    }
}
