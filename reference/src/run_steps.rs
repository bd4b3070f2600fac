//! Random steps of a node's run. The steps know the node as it is, so that most of them make sense and lead far.

use crate::change::{Change, apply};
use crate::entry::{Dispute, Entry, Look, Pass, Word};
use crate::hex;
use crate::message::{Message, Signature};
use crate::node::{Account, Act, Node};
use crate::random::Random;
use crate::sha256;
use crate::sheet::{Key, Lock, MOST, Payment, Sheet};
use crate::terms::Terms;
use std::collections::HashMap;

const LIMIT: u32 = u32::MAX;

/// What happens next.
pub enum Step {
    /// A line, with its newline.
    Line(Vec<u8>),
    /// The programs stop, and start again.
    Stop(Stop),
}

pub struct Stop {
    /// Whether the programs are killed. Else their input ends.
    pub killed: bool,
    /// What the input ends with: a line without its newline.
    pub last_line: Option<Vec<u8>>,
    pub between: Between,
}

/// What is done with the folders while the programs are stopped.
pub enum Between {
    Nothing,
    /// The file is cut to so many bytes.
    Cut(usize),
    /// One byte of the file is another.
    Damage(usize, u8),
    /// These bytes are appended to the file.
    Append(Vec<u8>),
    /// The terms are other ones.
    Terms(String),
}

/// How often a run does what.
struct Mood {
    offers: usize,
    passes: usize,
    signs: usize,
    /// Each of pay, get, give up, returned and getting.
    takes_off: usize,
    keys: usize,
    looks: usize,
}

const MOODS: [Mood; 4] = [
    // Many payments come to stand.
    Mood { offers: 45, passes: 30, signs: 25, takes_off: 0, keys: 1, looks: 2 },
    Mood { offers: 15, passes: 12, signs: 25, takes_off: 8, keys: 8, looks: 4 },
    // Time passes.
    Mood { offers: 12, passes: 10, signs: 15, takes_off: 3, keys: 8, looks: 40 },
    // Payments are taken off.
    Mood { offers: 4, passes: 4, signs: 30, takes_off: 20, keys: 10, looks: 2 },
];

/// The first mood. A run that has it mainly is to fill sheets: nothing disturbs it.
const HOARD: usize = 0;

pub struct Steps {
    random: Random,
    mood: usize,
    /// The mood that the run comes back to.
    main_mood: usize,
    /// The keys of all locks that were offered.
    keys: HashMap<Lock, Key>,
    /// Each neighbour's number for its account.
    names: Vec<u8>,
    /// Where ticks begin.
    first_tick: u32,
    /// How often, in a hundred, a look finds something new in the register; and in a thousand, a stop comes.
    disputes: usize,
    stops: usize,
    /// Whether amounts are 0 to 2, so that many payments find room.
    small: bool,
    /// What the register shows, and what is on its way there.
    shown: Vec<Word>,
    coming: Vec<Word>,
}

// A run and its terms.
impl Steps {
    pub fn from_seed(seed: u64) -> Steps {
        let mut random = Random::from_seed(seed);
        let first_tick = match random.below(4) {
            0 => 0,
            1 => random.number() as u32,
            2 => LIMIT - random.below(2000) as u32,
            _ => random.below(1000) as u32,
        };
        let mood = random.below(MOODS.len());
        Steps {
            mood,
            main_mood: mood,
            keys: HashMap::new(),
            names: (0..16).map(|_| random.below(16) as u8).collect(),
            first_tick,
            disputes: if mood == HOARD { 0 } else { random.one_of(&[0, 3, 15, 40]) },
            stops: if mood == HOARD { 1 } else { random.one_of(&[1, 3, 10, 50]) },
            small: mood == HOARD || random.chance(30),
            shown: Vec::new(),
            coming: Vec::new(),
            random,
        }
    }

    /// The terms of a new run.
    pub fn terms(&mut self) -> Terms {
        let many: &[usize] =
            if self.main_mood == HOARD { &[2, 2, 3] } else { &[1, 2, 2, 2, 3, 3, 4, 16] };
        let deposits = (0..self.random.one_of(many)).map(|_| self.deposits()).collect();
        self.numbers(deposits)
    }

    fn deposits(&mut self) -> (u32, u32) {
        match self.random.below(6) {
            0 => (self.random.below(3) as u32, self.random.below(3) as u32),
            1 => {
                let own = self.random.number() as u32;
                (own, LIMIT - own)
            }
            2 => self.random.one_of(&[(LIMIT, 0), (0, LIMIT), (LIMIT - 1, 1), (1, LIMIT - 1)]),
            _ => (50 + self.random.below(100) as u32, 50 + self.random.below(100) as u32),
        }
    }

    /// Terms with these deposits; all inequalities hold, often just so.
    fn numbers(&mut self, deposits: Vec<(u32, u32)>) -> Terms {
        let large = self.random.chance(8);
        let scale = if large { 150_000_000 } else { 1 };
        let look = (1 + self.random.below(4) as u32) * scale;
        let delay = self.random.below(3) as u32 * scale;
        let more = |random: &mut Random| if random.chance(50) { 0 } else { random.below(9) as u32 };
        let window = look + delay + 1 + more(&mut self.random);
        let gap = window + 3 * delay + 3 * look + more(&mut self.random);
        Terms { gap, window, delay, look, deposits }
    }

    /// The text of terms, written in one of many ways.
    pub fn text(&mut self, terms: &Terms) -> String {
        let Terms { gap, window, delay, look, deposits } = terms;
        let mut lines = vec![
            format!("gap {gap}"),
            format!("window {window}"),
            format!("delay {delay}"),
            format!("look {look}"),
        ];
        for place in (1..4).rev() {
            lines.swap(place, self.random.below(place + 1));
        }
        lines.extend(deposits.iter().map(|(own, theirs)| format!("account {own} {theirs}")));
        let mut text = String::new();
        for line in lines {
            text += &match self.random.below(8) {
                0 => format!("  {line}#"),
                1 => format!("# {line}\n\n{line} # {line}"),
                2 => line.replace(' ', "   00"),
                _ => line,
            };
            text.push('\n');
        }
        if self.random.chance(20) {
            text.pop();
        }
        text
    }

    /// What the node sent to the register.
    pub fn saw(&mut self, node: &Node, acts: &[Act]) {
        let tick = node.looked.unwrap_or(0);
        for act in acts {
            let word = match act {
                Act::ShowSheet(Sheet { account, number, .. }) => Word::Dispute(Dispute {
                    account: u32::from(*account),
                    number: *number,
                    until: tick.saturating_add(node.terms.window),
                }),
                Act::ShowKey(account, key) => {
                    Word::Key { account: u32::from(*account), key: *key, tick }
                }
                _ => continue,
            };
            self.coming.push(word);
        }
    }
}

// Steps.
impl Steps {
    pub fn step(&mut self, node: &Node, file: &[u8]) -> Step {
        if self.random.below(100) == 0 {
            let other = self.random.below(MOODS.len());
            let stays = if self.main_mood == HOARD { 95 } else { 60 };
            self.mood = if self.random.chance(stays) { self.main_mood } else { other };
        }
        let stuck = node.looked.is_some() && !node.accounts.iter().any(|one| !node.is_frozen(one));
        let stops = if stuck { self.stops.max(100) } else { self.stops };
        if self.random.below(1000) < stops {
            return Step::Stop(self.stop(node, file));
        }
        Step::Line(self.line(node))
    }

    fn line(&mut self, node: &Node) -> Vec<u8> {
        let entry = match self.random.below(100) {
            0..3 => return self.hostile_line(node),
            3..15 => {
                let sensible = self.sensible(node);
                self.nearly(node, sensible)
            }
            _ => self.sensible(node),
        };
        let key_from = self.random.one_of(&[0, 1, 2, 15, 16, 99, LIMIT]);
        let line = entry.write(key_from).into_bytes();
        let mut line = if self.random.chance(4) { self.damaged(line) } else { line };
        if self.random.chance(5) {
            line = self.written_otherwise(line);
        }
        line.push(b'\n');
        line
    }

    /// An entry that a neighbour or the owner might well come with.
    fn sensible(&mut self, node: &Node) -> Entry {
        if node.looked.is_none() && self.random.chance(70) {
            return self.look(node);
        }
        for _ in 0..20 {
            if let Some(entry) = self.perhaps(node) {
                return entry;
            }
        }
        self.look(node)
    }

    fn perhaps(&mut self, node: &Node) -> Option<Entry> {
        let mood = &MOODS[self.mood];
        let weights = [mood.offers, mood.passes, mood.signs, 5 * mood.takes_off, mood.keys];
        let mut choice = self.random.below(weights.iter().sum::<usize>() + mood.looks);
        for (kind, weight) in weights.into_iter().enumerate() {
            if choice < weight {
                return match kind {
                    0 => self.offer(node),
                    1 => self.pass(node),
                    2 => self.sign_back(node),
                    3 => self.take_off(node),
                    _ => self.key(node),
                };
            }
            choice -= weight;
        }
        Some(self.look(node))
    }

    /// An account, mostly one that isn't frozen and, if wanted, without a next.
    fn account<'a>(&mut self, node: &'a Node, quiet: bool) -> Option<(u32, &'a Account)> {
        let place = self.random.below(node.accounts.len());
        let account = &node.accounts[place];
        let fits = !node.is_frozen(account) && (!quiet || account.next.is_none());
        (fits || self.random.chance(3)).then_some((place as u32, account))
    }

    /// A sheet in the neighbour's view, as it comes in a line for the account.
    fn proposal(&mut self, account: u32, sheet: &Sheet, signed: usize) -> Entry {
        let name = self.names[account as usize % 16];
        let sheet = Sheet { account: name, ..sheet.turned() };
        let signature = Signature { account: name, number: sheet.number };
        let signature = self.random.chance(signed).then_some(signature);
        Entry::Proposal { account, sheet, signature }
    }
}

// Sensible entries.
impl Steps {
    fn offer(&mut self, node: &Node) -> Option<Entry> {
        let (account, Account { held, .. }) = self.account(node, true)?;
        let key: Key = self.random.bytes(32).try_into().ok()?;
        let lock = sha256(&key);
        self.keys.insert(lock, key);
        let most = if self.small { held.theirs.min(2) } else { held.theirs };
        let payment = Payment { lock, amount: self.up_to(most), end: self.in_end(node) };
        let sheet = apply(held, Change::Offered, &payment).ok()?;
        Some(self.proposal(account, &sheet, 60))
    }

    fn pass(&mut self, node: &Node) -> Option<Entry> {
        let (from, Account { held, .. }) = self.account(node, true)?;
        let (to, other) = self.account(node, true)?;
        let was_passed_on = |payment: &Payment| node.passed_on.contains_key(&payment.lock);
        let fit: Vec<Payment> =
            held.ins.iter().filter(|payment| !was_passed_on(payment)).copied().collect();
        let any = self.random.chance(5);
        let payment = self.one_of(if any { &held.ins } else { &fit })?;
        if from == to && self.random.chance(97) {
            return None;
        }
        let amount = payment.amount.min(other.held.own);
        let latest = payment.end.saturating_sub(node.terms.gap);
        let tick = node.looked.unwrap_or(0);
        let end = match self.random.below(12) {
            _ if self.main_mood == HOARD && self.random.chance(95) => latest,
            0..6 => latest,
            6 => latest.saturating_add(1),
            7 => tick,
            8 => tick.saturating_sub(1),
            _ => tick.saturating_add(self.random.below(30) as u32).min(latest),
        };
        let amount = if self.random.chance(70) { amount } else { self.up_to(amount) };
        Some(Entry::Pass(Pass { from, to, lock: payment.lock, amount, end }))
    }

    fn sign_back(&mut self, node: &Node) -> Option<Entry> {
        let (account, Account { next, .. }) = self.account(node, false)?;
        let next = next.as_ref()?;
        if self.random.chance(25) {
            return Some(self.proposal(account, next, 90));
        }
        let name = self.names[account as usize % 16];
        let signature = Signature { account: name, number: next.number };
        Some(Entry::Signature { account, signature })
    }

    fn take_off(&mut self, node: &Node) -> Option<Entry> {
        let (account, Account { held, .. }) = self.account(node, true)?;
        let kind = self.random.below(5);
        let payments = if kind < 2 { &held.outs } else { &held.ins };
        let payment = self.one_of(payments)?;
        let lock = payment.lock;
        let has_key = node.keys.contains_key(&lock);
        let (entry, fits) = match kind {
            0 => (Entry::Pay { account, lock }, has_key),
            1 => {
                let sheet = apply(held, Change::Returned, &payment).ok()?;
                (self.proposal(account, &sheet, 70), true)
            }
            2 => (Entry::Get { account, lock }, has_key),
            3 => {
                let sheet = apply(held, Change::Getting, &payment).ok()?;
                (self.proposal(account, &sheet, 70), has_key)
            }
            _ => (Entry::GiveUp { account, lock }, !has_key && !node.out_stands(&lock)),
        };
        (fits || self.random.chance(10)).then_some(entry)
    }

    /// The key of a payment that stands, or some key.
    fn key(&mut self, node: &Node) -> Option<Entry> {
        let place = self.random.below(node.accounts.len());
        let sheet = &node.accounts[place].held;
        let payments = if self.random.chance(50) { &sheet.ins } else { &sheet.outs };
        match self.one_of(payments) {
            Some(payment) if self.random.chance(90) => {
                Some(Entry::Key(*self.keys.get(&payment.lock)?))
            }
            _ if self.random.chance(80) => None,
            _ => Some(Entry::Key(self.random.bytes(32).try_into().ok()?)),
        }
    }

    fn look(&mut self, node: &Node) -> Entry {
        let tick = self.tick(node);
        self.register_at(node, tick);
        let mut words = self.shown.clone();
        for place in (1..words.len()).rev() {
            words.swap(place, self.random.below(place + 1));
        }
        if self.random.chance(4) {
            words.push(self.any_word(node, tick));
        }
        if !words.is_empty() && self.random.chance(3) {
            words.remove(self.random.below(words.len()));
        }
        Entry::Look(Look { tick, words })
    }

    fn tick(&mut self, node: &Node) -> u32 {
        let Some(looked) = node.looked else {
            return self.first_tick;
        };
        let Terms { look, delay, .. } = node.terms;
        let ahead = match self.random.below(20) {
            _ if self.main_mood == HOARD && self.random.chance(95) => 0,
            0..3 => 0,
            3..8 => 1,
            8..12 => look,
            12 => look.saturating_add(1),
            13 => delay,
            14..17 if self.mood == 2 => return self.at_an_end(node, looked),
            14 if self.random.below(50) == 0 => return LIMIT,
            _ => self.random.below(look.min(1000) as usize + 1) as u32,
        };
        self.first_tick = looked.saturating_add(ahead);
        self.first_tick
    }

    /// A tick at or beside where a payment's end is near or past, if that is ahead.
    fn at_an_end(&mut self, node: &Node, looked: u32) -> u32 {
        let account = self.random.below(node.accounts.len());
        let Account { held, next, .. } = &node.accounts[account];
        let sheet = next.as_ref().unwrap_or(held);
        let payments = [&sheet.ins[..], &sheet.outs].concat();
        let Some(payment) = self.one_of(&payments) else { return looked };
        let near = 2 * u64::from(node.terms.look) + 2 * u64::from(node.terms.delay);
        let near = u32::try_from(near).unwrap_or(LIMIT);
        let before = self.random.one_of(&[0, near]);
        let tick = payment.end.saturating_sub(before).saturating_add(self.random.below(3) as u32);
        tick.saturating_sub(1).max(looked)
    }

    /// What comes to be in the register by the tick.
    fn register_at(&mut self, node: &Node, tick: u32) {
        for word in std::mem::take(&mut self.coming) {
            match self.random.below(10) {
                0..6 => self.arrive(word, tick),
                6..9 => self.coming.push(word),
                _ => {}
            }
        }
        if self.random.below(100) >= self.disputes {
            return;
        }
        let place = self.random.below(node.accounts.len());
        let Account { held, next, .. } = &node.accounts[place];
        let account = place as u32;
        let key = self.one_of(&[&held.outs[..], &held.ins].concat());
        let key = key.and_then(|payment| self.keys.get(&payment.lock).copied());
        match key {
            Some(key) if self.random.chance(60) => {
                self.arrive(Word::Key { account, key, tick }, tick);
            }
            _ => {
                let highest = next.as_ref().map_or(held.number, |next| next.number);
                let number = highest.saturating_sub(self.random.below(4) as u32);
                let until = tick.saturating_add(node.terms.window);
                self.arrive(Word::Dispute(Dispute { account, number, until }), tick);
            }
        }
    }

    /// A dispute opens, or its sheet is replaced by a higher one while it is open.
    fn arrive(&mut self, word: Word, tick: u32) {
        let Word::Dispute(dispute) = word else {
            self.shown.push(word);
            return;
        };
        for shown in &mut self.shown {
            if let Word::Dispute(other) = shown
                && other.account == dispute.account
            {
                if tick < other.until {
                    other.number = other.number.max(dispute.number);
                }
                return;
            }
        }
        self.shown.push(word);
    }
}

// Numbers.
impl Steps {
    fn one_of<T: Copy>(&mut self, choices: &[T]) -> Option<T> {
        (!choices.is_empty()).then(|| choices[self.random.below(choices.len())])
    }

    /// A number from 0 to `most`, often one of its ends.
    fn up_to(&mut self, most: u32) -> u32 {
        match self.random.below(6) {
            0 => most,
            1 => 0,
            2 => most / 2,
            _ => self.random.below((most as usize + 1).min(50)) as u32,
        }
    }

    /// An end that leaves room for passing on, mostly.
    fn in_end(&mut self, node: &Node) -> u32 {
        let tick = node.looked.unwrap_or(0);
        let Terms { gap, look, .. } = node.terms;
        let room = tick.saturating_add(gap);
        if self.main_mood == HOARD && self.random.chance(97) {
            return room.saturating_add(500 + self.random.below(1000) as u32);
        }
        match self.random.below(20) {
            0 => tick,
            1 => tick.saturating_sub(1),
            2 => room.saturating_sub(1),
            3 => room,
            4 => LIMIT,
            5 => tick.saturating_add(self.random.below(40) as u32),
            6 => self.random.number() as u32,
            7..14 => room.saturating_add(self.random.below(1000) as u32),
            _ => room.saturating_add(self.random.below(4 * look.min(1000) as usize) as u32),
        }
    }

    fn beside(&mut self, number: u32) -> u32 {
        match self.random.below(4) {
            0 | 1 => number.wrapping_add(1),
            2 => number.wrapping_sub(1),
            _ => number ^ (1 << self.random.below(32)),
        }
    }

    fn any_word(&mut self, node: &Node, tick: u32) -> Word {
        let many = node.accounts.len() as u32;
        let account = self.random.one_of(&[0, 0, 1, many - 1, many, 16, LIMIT]);
        let number = self.random.one_of(&[0, 1, 2, 7, LIMIT]);
        let until = self.random.one_of(&[0, tick, tick.saturating_add(1), LIMIT]);
        match self.random.below(3) {
            0 => Word::Dispute(Dispute { account, number, until }),
            1 => Word::Key { account, key: [self.random.below(3) as u8; 32], tick: until },
            _ => {
                let sheets = node.accounts.iter().map(|account| &account.held);
                let ins: Vec<Payment> = sheets.flat_map(|sheet| sheet.ins.clone()).collect();
                let lock = self.one_of(&ins).map_or([0; 32], |payment| payment.lock);
                let key = self.keys.get(&lock).copied().unwrap_or([9; 32]);
                Word::Key { account, key, tick: until }
            }
        }
    }
}

// Entries that are nearly sensible.
impl Steps {
    /// The entry with one thing changed.
    fn nearly(&mut self, node: &Node, entry: Entry) -> Entry {
        let other = self.other_account(node);
        match entry {
            Entry::Proposal { account, sheet, signature } => {
                self.nearly_proposal(node, account, sheet, signature)
            }
            Entry::Signature { account, signature } => match self.random.below(3) {
                0 => Entry::Signature { account: other, signature },
                1 => {
                    let number = self.beside(signature.number);
                    Entry::Signature { account, signature: Signature { number, ..signature } }
                }
                _ => {
                    let name = self.random.one_of(&[0, 15, 16, 17, 255]);
                    let signature = Signature { account: name, ..signature };
                    Entry::Signature { account, signature }
                }
            },
            Entry::Key(mut key) => {
                key[self.random.below(32)] ^= 1 << self.random.below(8);
                Entry::Key(key)
            }
            Entry::Pass(pass) => Entry::Pass(self.nearly_pass(node, pass)),
            Entry::Pay { account, lock } => {
                let (account, lock) = self.nearly_call(node, account, lock);
                Entry::Pay { account, lock }
            }
            Entry::Get { account, lock } => {
                let (account, lock) = self.nearly_call(node, account, lock);
                Entry::Get { account, lock }
            }
            Entry::GiveUp { account, lock } => {
                let (account, lock) = self.nearly_call(node, account, lock);
                Entry::GiveUp { account, lock }
            }
            Entry::Look(look) => Entry::Look(self.nearly_look(node, look)),
        }
    }

    fn other_account(&mut self, node: &Node) -> u32 {
        let many = node.accounts.len() as u32;
        self.random.one_of(&[0, 1, many - 1, many, 15, 16, 256, LIMIT])
    }

    /// A lock that stands somewhere, was passed on, or is new.
    fn some_lock(&mut self, node: &Node) -> Lock {
        let Account { held, next, .. } = &node.accounts[self.random.below(node.accounts.len())];
        let sheet = next.as_ref().unwrap_or(held);
        let payments = [&sheet.ins[..], &sheet.outs].concat();
        let passed_on = node.passed_on.keys().min().copied();
        match (self.one_of(&payments), passed_on) {
            (Some(payment), _) if self.random.chance(70) => payment.lock,
            (_, Some(lock)) if self.random.chance(70) => lock,
            _ => [self.random.below(256) as u8; 32],
        }
    }

    fn nearly_call(&mut self, node: &Node, account: u32, lock: Lock) -> (u32, Lock) {
        match self.random.below(3) {
            0 => (self.other_account(node), lock),
            1 => (account, self.some_lock(node)),
            _ => {
                let mut lock = lock;
                lock[self.random.below(32)] ^= 1 << self.random.below(8);
                (account, lock)
            }
        }
    }

    fn nearly_pass(&mut self, node: &Node, pass: Pass) -> Pass {
        match self.random.below(7) {
            0 => Pass { from: self.other_account(node), ..pass },
            1 => Pass { to: self.other_account(node), ..pass },
            2 => Pass { to: pass.from, ..pass },
            3 => Pass { lock: self.some_lock(node), ..pass },
            4 => Pass { amount: self.beside(pass.amount), ..pass },
            _ => Pass { end: self.beside(pass.end), ..pass },
        }
    }

    fn nearly_look(&mut self, node: &Node, mut look: Look) -> Look {
        match self.random.below(4) {
            0 => look.tick = node.looked.unwrap_or(5).saturating_sub(1),
            1 => look.words.extend(look.words.clone()),
            2 => {
                let place = self.random.below(look.words.len().max(1));
                if let Some(Word::Dispute(dispute)) = look.words.get_mut(place) {
                    dispute.number = self.beside(dispute.number);
                }
            }
            _ => look.words.push(self.any_word(node, look.tick)),
        }
        look
    }

    fn nearly_proposal(
        &mut self,
        node: &Node,
        mut account: u32,
        mut sheet: Sheet,
        mut signature: Option<Signature>,
    ) -> Entry {
        match self.random.below(14) {
            0 => account = self.other_account(node),
            1 => sheet.account = self.random.one_of(&[0, 15, 16, 255]),
            2 => sheet.number = self.beside(sheet.number),
            3 => sheet.own = self.beside(sheet.own),
            4 => sheet.theirs = self.beside(sheet.theirs),
            5 => std::mem::swap(&mut sheet.own, &mut sheet.theirs),
            6 => std::mem::swap(&mut sheet.ins, &mut sheet.outs),
            7 => signature = self.other_signature(&sheet),
            8 => {
                // More than the sender has.
                if let Some(first) = sheet.outs.first_mut() {
                    first.amount =
                        self.random.one_of(&[LIMIT, first.amount.wrapping_add(sheet.own) + 1]);
                }
            }
            9 => {
                let lock = self.some_lock(node);
                if let Some(first) = sheet.outs.first_mut() {
                    first.lock = lock;
                }
            }
            _ => {
                let payments =
                    if self.random.chance(60) { &mut sheet.outs } else { &mut sheet.ins };
                change_payments(&mut self.random, payments);
            }
        }
        Entry::Proposal { account, sheet, signature }
    }

    fn other_signature(&mut self, sheet: &Sheet) -> Option<Signature> {
        match self.random.below(2) {
            0 => {
                let number = self.beside(sheet.number);
                Some(Signature { account: sheet.account, number })
            }
            _ => {
                let account = self.random.one_of(&[0, 15, 16, 255]);
                Some(Signature { account, number: sheet.number })
            }
        }
    }
}

fn change_payments(random: &mut Random, payments: &mut Vec<Payment>) {
    if payments.is_empty() {
        return;
    }
    let place = random.below(payments.len());
    match random.below(6) {
        0 => payments.rotate_left(1),
        1 => {
            payments.remove(place);
        }
        2 if payments.len() < MOST => payments.push(payments[place]),
        3 => payments[place].amount = payments[place].amount.wrapping_add(1),
        4 => payments[place].end = payments[place].end.wrapping_sub(1),
        _ => payments[place].lock[random.below(32)] ^= 1,
    }
}

// Lines that can't be read, or are read in spite of how they are written.
impl Steps {
    /// Bytes changed, left out or added.
    fn damaged(&mut self, mut line: Vec<u8>) -> Vec<u8> {
        let place = self.random.below(line.len());
        let strange = [b' ', b'\t', b'\r', 0, 255, b':', b'0', b'g', b'x', b'-', b'9', b'#'];
        match self.random.below(5) {
            0 => line.truncate(place),
            1 => {
                line.remove(place);
            }
            2 => line.insert(place, self.random.one_of(&strange)),
            3 => line[place] = self.random.one_of(&strange),
            _ => line.extend([b' ', self.random.one_of(&strange)]),
        }
        line
    }

    /// The same with other spaces, large digits or leading zeros.
    fn written_otherwise(&mut self, line: Vec<u8>) -> Vec<u8> {
        let words: Vec<&[u8]> = line.split(|byte| *byte == b' ').collect();
        let mut written: Vec<u8> = vec![b' '; self.random.below(3)];
        for word in words {
            let is_number =
                !word.is_empty() && word.len() < 12 && word.iter().all(u8::is_ascii_digit);
            if is_number && self.random.chance(50) {
                written.extend(vec![b'0'; self.random.below(80)]);
            }
            match word.len() >= 12 && self.random.chance(50) {
                true => written.extend(word.to_ascii_uppercase()),
                false => written.extend(word),
            }
            written.extend(vec![b' '; 1 + self.random.below(2)]);
        }
        written
    }

    fn hostile_line(&mut self, node: &Node) -> Vec<u8> {
        let above = "4294967296";
        let lock = hex::write(&self.some_lock(node));
        let line = match self.random.below(16) {
            0 => String::new(),
            1 => " ".repeat(self.random.below(5)),
            2 => "x".repeat(self.random.below(100)),
            3 => format!("tick {above}"),
            4 => format!("tick {} 0:1:2", "9".repeat(10 + self.random.below(60))),
            5 => format!("tick {above} 0:1"),
            6 => format!("tick {} 0:{above}:1", self.first_tick),
            7 => format!("pay {above} {lock}"),
            8 => format!("pass 0 1 {lock} {above} 5"),
            9 => format!("{above} 03{lock}"),
            10 => format!("0 03{lock} 020000000000"),
            11 => format!("give up 0 {lock} {lock}"),
            12 => self.too_many(node),
            13 => format!("0 {}", hex::write(&self.random.bytes(6))),
            14 => "0".repeat(20_000),
            _ => {
                let length = self.random.below(60);
                let mut bytes = self.random.bytes(length);
                bytes.retain(|byte| *byte != b'\n');
                bytes.push(b'\n');
                return bytes;
            }
        };
        format!("{line}\n").into_bytes()
    }

    /// A proposal with 33 ins, as the node would see it.
    fn too_many(&mut self, node: &Node) -> String {
        let place = self.random.below(node.accounts.len());
        let held = &node.accounts[place].held;
        let payment = Payment { lock: [5; 32], amount: 0, end: self.in_end(node) };
        let sheet = Sheet { account: 0, number: held.number.wrapping_add(1), ..held.turned() };
        let mut bytes = Message::Sheet(Sheet { outs: Vec::new(), ..sheet }).write();
        bytes.pop();
        bytes.push(33);
        bytes.extend((0..33).flat_map(|_| payment.write()));
        format!("{place} {}", hex::write(&bytes))
    }
}

// Stops.
impl Steps {
    fn stop(&mut self, node: &Node, file: &[u8]) -> Stop {
        if self.random.chance(60) {
            // After the start the register has another picture, and ticks go on where no end is past.
            self.shown.clear();
            self.coming.clear();
            let sheets = node.accounts.iter().flat_map(Account::sheets_that_may_count);
            let payments = sheets.flat_map(|sheet| sheet.ins.iter().chain(&sheet.outs));
            let first_end = payments.map(|payment| payment.end).min().unwrap_or(LIMIT - 5000);
            self.first_tick = self.first_tick.min(first_end);
        }
        let killed = self.random.chance(50);
        let last_line = (!killed && self.random.chance(30)).then(|| {
            let mut line = self.line(node);
            line.pop();
            line
        });
        let last_line = last_line.filter(|line| !line.is_empty());
        Stop { killed, last_line, between: self.between(node, file) }
    }

    fn between(&mut self, node: &Node, file: &[u8]) -> Between {
        let place = self.random.below(file.len());
        match self.random.below(20) {
            0..6 => Between::Nothing,
            6..9 => Between::Cut(file.len() - self.random.below(file.len().min(200))),
            9 => Between::Cut(self.random.below(file.len() + 1)),
            10..12 => {
                let near_the_end = file.len() - 1 - self.random.below(file.len().min(100));
                Between::Damage(near_the_end, self.random.below(256) as u8)
            }
            12..14 => Between::Damage(place, file[place] ^ (1 << self.random.below(8))),
            14..16 => Between::Append(self.appended(node, file)),
            16 => {
                let bytes = self.random.below(40);
                Between::Append(self.random.bytes(bytes))
            }
            _ => Between::Terms(self.other_terms(node)),
        }
    }

    /// A record that stands in the file already, or the beginning of one, or one that can't stand there.
    fn appended(&mut self, node: &Node, file: &[u8]) -> Vec<u8> {
        let sheet = node.accounts[self.random.below(node.accounts.len())].held.write();
        let first = self.random.one_of(&[4, 5]);
        let mut bytes = match self.random.below(4) {
            0 => [&[first][..], &sheet].concat(),
            1 => file[..file.len().min(16 * (1 + self.random.below(3)))].to_vec(),
            2 => {
                let accounts = [self.random.below(4) as u8, self.random.below(4) as u8];
                [&[6][..], &self.some_lock(node), &accounts].concat()
            }
            _ => [&[7][..], &self.random.bytes(32)].concat(),
        };
        if self.random.chance(40) {
            bytes.truncate(1 + self.random.below(bytes.len()));
        }
        bytes
    }

    fn other_terms(&mut self, node: &Node) -> String {
        let mut terms = self.numbers(node.terms.deposits.clone());
        match self.random.below(8) {
            0 => terms.window = terms.look + terms.delay,
            1 => terms.gap = terms.window + 3 * terms.delay + 3 * terms.look - 1,
            2 => terms.look = 0,
            3 => terms.deposits.push((1, 1)),
            4 => {
                terms.deposits.pop();
            }
            5 => terms.deposits[0].0 ^= 1,
            6 => {
                let text = self.text(&terms).into_bytes();
                let damaged = self.damaged(text);
                return String::from_utf8_lossy(&damaged).into_owned();
            }
            _ => {}
        }
        self.text(&terms)
    }
}
