//! Neighbours that try to make a node lose: at random, with a liking for what hurts.

use crate::change::{Change, apply};
use crate::conduct::Conduct;
use crate::entry::{Entry, Pass};
use crate::message::Signature;
use crate::random::Random;
use crate::sha256;
use crate::sheet::{Key, Lock, Payment, Sheet};
use crate::terms::Terms;
use crate::world::World;

/// A node to play against.
#[derive(Clone, Copy)]
pub struct Variant {
    pub name: &'static str,
    pub conduct: Conduct,
    /// By how much the window and the gap are below the least that is allowed.
    pub window_short: u32,
    pub gap_short: u32,
}

const fn variant(name: &'static str, conduct: Conduct) -> Variant {
    Variant { name, conduct, window_short: 0, gap_short: 0 }
}

pub const RULES: Variant = variant("the rules", Conduct::Rules);

/// Nodes that leave one rule out. Each of them can lose.
pub const BROKEN: [Variant; 11] = [
    variant("opening doesn't freeze", Conduct::OpeningDoesNotFreeze),
    variant("only the in's end is looked at", Conduct::OnlyTheInsEnd),
    variant("signs before a look after a start", Conduct::SignsBeforeLooking),
    variant("a signature back is taken in a dispute", Conduct::SignatureInDispute),
    variant("the sheet is recorded before the lock passed on", Conduct::SheetBeforeLock),
    variant("a signature back isn't synced", Conduct::SignatureNotSynced),
    variant("giving up looks at held only", Conduct::GivingUpLooksAtHeld),
    variant("giving up looks at next only", Conduct::GivingUpLooksAtNext),
    variant("keys are shown late", Conduct::KeysShownLate),
    Variant { window_short: 1, ..variant("the window is one short", Conduct::Rules) },
    // It has one look more than it needs.
    Variant { gap_short: 2, ..variant("the gap is two short", Conduct::Rules) },
];

/// What a run came to.
#[derive(Clone, Copy, Debug, PartialEq, Eq)]
pub struct Outcome {
    pub put_in: u64,
    pub came_out: u64,
    /// How many locks were passed on, accounts disputed, and keys shown to the register.
    pub passed_on: usize,
    pub disputed: usize,
    pub keys: usize,
}

impl Outcome {
    pub fn is_loss(self) -> bool {
        self.came_out < self.put_in
    }
}

struct Game {
    random: Random,
    world: World,
    keys: Vec<Key>,
    /// The last tick at which something new begins, and the one up to which the neighbours don't part.
    busy_until: u32,
    stays_until: u32,
    /// How often in a hundred, in this run: a stop, a dispute, a sheet without its signature, a key told early.
    stops: usize,
    disputes: usize,
    unsigned: usize,
    told: usize,
    /// How many things happen in a tick at most.
    haste: usize,
    story: Option<Vec<String>>,
}

/// Plays one run to its end. The story is gathered if it is wanted.
pub fn play(variant: &Variant, seed: u64, with_story: bool) -> (Outcome, Vec<String>) {
    let mut game = Game::new(variant, seed, with_story);
    game.world.look();
    game.begin();
    while !game.is_over() {
        game.tick();
    }
    let accounts = 0..game.world.pages.len();
    let came_out = accounts.filter_map(|account| game.world.payout(account)).sum();
    let deposits = &game.world.node.terms.deposits;
    let put_in = deposits.iter().map(|(own, _)| u64::from(*own)).sum();
    let pages = &game.world.pages;
    let outcome = Outcome {
        put_in,
        came_out,
        passed_on: game.world.node.passed_on.len(),
        disputed: pages.iter().filter(|page| page.dispute.is_some()).count(),
        keys: pages.iter().map(|page| page.keys.len()).sum(),
    };
    (outcome, game.story.unwrap_or_default())
}

impl Game {
    fn new(variant: &Variant, seed: u64, with_story: bool) -> Game {
        let mut random = Random::from_seed(seed);
        let look = 1 + random.below(2) as u32;
        let delay = random.below(3) as u32;
        let window = look + delay + 1 - variant.window_short;
        let gap = look + delay + 1 + 3 * delay + 3 * look - variant.gap_short;
        let accounts = random.one_of(&[2, 2, 3]);
        let deposits =
            (0..accounts).map(|_| (1 + random.below(2) as u32, 1 + random.below(2) as u32));
        let terms = Terms { gap, window, delay, look, deposits: deposits.collect() };
        let keys = (0..random.one_of(&[1, 1, 2, 3])).map(|key| [key + 1; 32]).collect();
        let busy_until = random.below(gap as usize + 12) as u32;
        let longer = random.one_of(&[0, 0, 0, gap + window + 2 * delay, 2 * gap]);
        Game {
            busy_until,
            stays_until: busy_until + longer,
            stops: random.one_of(&[0, 0, 5, 10]),
            disputes: random.one_of(&[2, 5, 10]),
            unsigned: random.one_of(&[10, 50]),
            told: random.one_of(&[0, 5, 15]),
            haste: 1 + random.below(12),
            world: World::new(&terms, variant.conduct),
            keys,
            story: with_story.then(|| vec![format!("{terms:?}")]),
            random,
        }
    }

    /// Most runs begin with payments that are passed on.
    fn begin(&mut self) {
        for _ in 0..self.random.below(3) {
            let account = self.random.below(self.world.pages.len());
            self.offer(account).into_iter().for_each(|entry| self.enter(&entry));
            self.pass(account).into_iter().for_each(|entry| self.enter(&entry));
            let signs = self.random.chance(80);
            for account in (0..self.world.pages.len()).filter(|_| signs) {
                self.sign_back(account).into_iter().for_each(|entry| self.enter(&entry));
            }
        }
    }

    fn tell(&mut self, what: impl FnOnce(&World) -> String) {
        if let Some(story) = &mut self.story {
            story.push(format!("tick {}: {}", self.world.now, what(&self.world)));
        }
    }

    fn is_over(&self) -> bool {
        let mut accounts = 0..self.world.pages.len();
        self.world.now > self.stays_until
            && accounts.all(|account| self.world.payout(account).is_some())
    }

    /// All that happens at one tick.
    fn tick(&mut self) {
        for _ in 0..self.random.below(self.haste + 1) {
            self.something();
        }
        // The node's look is mostly late in the tick, and what is on its way comes in after it.
        if self.world.must_look() || self.random.chance(30) {
            self.look();
        }
        for _ in 0..self.random.below(3) {
            self.something();
        }
        while let Some(place) = self.world.must_arrive() {
            self.arrive(place);
        }
        self.show_last_keys();
        // What was shown just now may call for a look, whose acts may call for more with a delay of 0.
        while let Some(place) = self.world.must_arrive() {
            self.arrive(place);
        }
        self.world.tick();
    }

    fn look(&mut self) {
        self.tell(|_| "the node looks".into());
        self.world.look();
        self.tell(|world| format!("{} things are on their way", world.on_the_way.len()));
    }

    fn arrive(&mut self, place: usize) {
        self.world.arrive(place);
        self.tell(|world| format!("something comes in: {}", disputes(world)));
    }

    fn something(&mut self) {
        let account = self.random.below(self.world.pages.len());
        let busy = self.world.now <= self.busy_until;
        let stays = self.world.now <= self.stays_until;
        if self.random.below(100) < self.stops && stays {
            self.tell(|_| "the machine stops, and the node starts".into());
            let kept = self.random.below(2);
            self.world.stop(kept);
            return;
        }
        if self.random.below(100) < self.disputes || !stays && self.random.chance(10) {
            self.dispute(account);
            return;
        }
        if self.random.chance(5) {
            self.show_before_it_arrives();
            return;
        }
        if !self.world.on_the_way.is_empty() && self.random.chance(10) {
            let place = self.random.below(self.world.on_the_way.len());
            self.arrive(place);
            return;
        }
        if self.random.chance(5) {
            self.unwind(account);
            return;
        }
        let entry = match self.random.below(12) {
            0 | 1 if busy => self.offer(account),
            2 | 3 => self.pass(account),
            4 | 5 => self.sign_back(account),
            6 | 7 => self.give_up(account),
            8 | 9 => self.give_back(account),
            10 => self.pay_or_get(account),
            _ => self.tell_key(),
        };
        if let Some(entry) = entry {
            self.enter(&entry);
        }
    }

    fn enter(&mut self, entry: &Entry) {
        if self.stops > 0 && self.random.chance(3) {
            let written = self.random.below(2);
            self.tell(|_| format!("a stop within {}, after {written} records", entry.write(0)));
            self.world.stop_within(entry, written);
            return;
        }
        let answer = self.world.enter(entry);
        self.tell(|_| match answer {
            Ok(()) => format!("taken: {}", entry.write(0)),
            Err(refusal) => format!("{refusal}: {}", entry.write(0)),
        });
    }
}

fn disputes(world: &World) -> String {
    let shown = |page: &crate::register::Page| match &page.dispute {
        Some(dispute) => format!("{} until {}", dispute.sheet.number, dispute.until),
        None => "quiet".into(),
    };
    world.pages.iter().map(shown).collect::<Vec<_>>().join(", ")
}

// What neighbours and the owner do.
impl Game {
    fn held(&self, account: usize) -> &Sheet {
        &self.world.node.accounts[account].held
    }

    fn one_of(&mut self, payments: &[Payment]) -> Option<Payment> {
        (!payments.is_empty()).then(|| self.random.one_of(payments))
    }

    fn proposal(&mut self, account: usize, sheet: &Sheet) -> Entry {
        let signature = Signature { account: 0, number: sheet.number };
        let signature = (self.random.below(100) >= self.unsigned).then_some(signature);
        let sheet = Sheet { account: 0, ..sheet.turned() };
        Entry::Proposal { account: account as u32, sheet, signature }
    }

    fn offer(&mut self, account: usize) -> Option<Entry> {
        let key = self.random.one_of(&self.keys);
        let now = self.world.now;
        let gap = self.world.node.terms.gap;
        let later = self.random.one_of(&[0, 0, 0, 1, 2, 4]);
        let end = if self.random.chance(85) { now + gap + later } else { gap + later };
        let payment = Payment { lock: sha256(&key), amount: 1, end };
        let sheet = apply(self.held(account), Change::Offered, &payment).ok()?;
        Some(self.proposal(account, &sheet))
    }

    fn pass(&mut self, from: usize) -> Option<Entry> {
        let to = self.random.below(self.world.pages.len());
        let ins = self.held(from).ins.clone();
        let payment = self.one_of(&ins)?;
        let latest = payment.end.saturating_sub(self.world.node.terms.gap);
        let end = if self.random.chance(70) {
            latest
        } else {
            self.random.below(latest as usize + 1) as u32
        };
        let Payment { lock, amount, .. } = payment;
        Some(Entry::Pass(Pass { from: from as u32, to: to as u32, lock, amount, end }))
    }

    fn sign_back(&mut self, account: usize) -> Option<Entry> {
        let next = self.world.node.accounts[account].next.as_ref()?;
        let signature = Signature { account: 0, number: next.number };
        Some(Entry::Signature { account: account as u32, signature })
    }

    fn give_up(&mut self, account: usize) -> Option<Entry> {
        let ins = self.held(account).ins.clone();
        let lock = self.one_of(&ins)?.lock;
        Some(Entry::GiveUp { account: account as u32, lock })
    }

    /// The neighbour returns an out, or, seldom, pays an in.
    fn give_back(&mut self, account: usize) -> Option<Entry> {
        let Sheet { ins, outs, .. } = self.held(account).clone();
        let (change, payments) =
            if self.random.chance(80) { (Change::Returned, outs) } else { (Change::Getting, ins) };
        let payment = self.one_of(&payments)?;
        let sheet = apply(self.held(account), change, &payment).ok()?;
        Some(self.proposal(account, &sheet))
    }

    fn pay_or_get(&mut self, account: usize) -> Option<Entry> {
        let Sheet { ins, outs, .. } = self.held(account).clone();
        let pays = self.random.chance(50);
        let lock = self.one_of(if pays { &outs } else { &ins })?.lock;
        let account = account as u32;
        Some(if pays { Entry::Pay { account, lock } } else { Entry::Get { account, lock } })
    }

    fn tell_key(&mut self) -> Option<Entry> {
        let key = self.random.one_of(&self.keys);
        (self.random.below(100) < self.told).then_some(Entry::Key(key))
    }

    /// A sheet that the node has signed is shown: the newest, an old one, or any.
    fn dispute(&mut self, account: usize) {
        let signed = &self.world.signed[account];
        let place = match self.random.below(3) {
            0 => signed.len() - 1,
            1 => 0,
            _ => self.random.below(signed.len()),
        };
        let sheet = signed[place].clone();
        self.world.show(account, &sheet);
        self.tell(|world| {
            format!("neighbour {account} shows sheet {}: {}", sheet.number, disputes(world))
        });
    }

    /// Where the node has sent a sheet to the register, an older one is there before it.
    fn show_before_it_arrives(&mut self) {
        let quiet = |account: &usize| self.world.pages[*account].dispute.is_none();
        let mut opened = self.world.on_the_way.iter().map(|sent| sent.account).filter(quiet);
        if let Some(account) = opened.next() {
            self.dispute(account);
        }
    }

    /// An out is returned, and at once the in that it was for is given up.
    fn unwind(&mut self, account: usize) {
        let outs = self.held(account).outs.clone();
        let Some(out) = self.one_of(&outs) else { return };
        let Ok(sheet) = apply(self.held(account), Change::Returned, &out) else { return };
        let returned = self.proposal(account, &sheet);
        self.enter(&returned);
        if self.random.chance(50) {
            self.sign_back(account).into_iter().for_each(|entry| self.enter(&entry));
        }
        let Some((from, _)) = self.world.node.passed_on.get(&out.lock).copied() else { return };
        self.enter(&Entry::GiveUp { account: from.into(), lock: out.lock });
        self.sign_back(from.into()).into_iter().for_each(|entry| self.enter(&entry));
    }

    fn key_of(&self, lock: &Lock) -> Option<Key> {
        self.keys.iter().find(|key| sha256(&key[..]) == *lock).copied()
    }

    /// Keys of outs are shown at the last tick at which they count, after the node has looked.
    fn show_last_keys(&mut self) {
        let delay = u64::from(self.world.node.terms.delay);
        for account in 0..self.world.pages.len() {
            let Some(dispute) = &self.world.pages[account].dispute else { continue };
            let last = |out: &Payment| (dispute.until + delay).max(out.end.into());
            let now = u64::from(self.world.now);
            let is_last = |out: &&Payment| now == last(out);
            let locks: Vec<Lock> =
                dispute.sheet.outs.iter().filter(is_last).map(|out| out.lock).collect();
            for lock in locks {
                if let Some(key) = self.key_of(&lock).filter(|_| self.random.chance(90)) {
                    self.world.show_key(account, &key);
                    self.tell(|_| format!("key {} is shown for account {account}", key[0]));
                }
            }
        }
        // Where nothing is under way any more, some sheet must come to count.
        let late = self.world.now > self.stays_until + 3 * self.world.node.terms.gap;
        for account in 0..self.world.pages.len() {
            let unsettled = self.world.payout(account).is_none();
            if late && unsettled && self.world.pages[account].dispute.is_none() {
                self.dispute(account);
            }
        }
    }
}
