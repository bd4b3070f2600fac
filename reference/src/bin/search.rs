//! Searches for runs in which a node loses money: none may be found for the rules, and some for each broken node.

use reference::adversary::{BROKEN, Outcome, RULES, Variant, play};
use std::env;
use std::process::ExitCode;
use std::time::Instant;

const HELP: &str = "\
search: neighbours that try to make a node lose, over many random runs

usage: search [--seed N] [--count N]
       search --story PLACE SEED

  Plays N runs (100000 if not given) against the node of the rules: none may end with less than was put in.
  Then up to N runs against each of the nodes that leave one rule out: each must be found to lose.

  --story PLACE SEED   tells one run: PLACE 0 is the node of the rules, 1 and so on are the broken ones.

Ends with 0 if all is so, 1 if not, 2 if it was called wrongly.
";

struct Options {
    seed: u64,
    count: u64,
}

fn main() -> ExitCode {
    let arguments: Vec<String> = env::args().skip(1).collect();
    let words: Vec<&str> = arguments.iter().map(String::as_str).collect();
    if words.iter().any(|word| ["--help", "-h", "help"].contains(word)) {
        print!("{HELP}");
        return ExitCode::SUCCESS;
    }
    if let ["--story", place, seed] = *words {
        return story(place, seed).unwrap_or_else(wrong_call);
    }
    match Options::read(&words) {
        Some(options) if search(&options) => ExitCode::SUCCESS,
        Some(_) => ExitCode::from(1),
        None => wrong_call(),
    }
}

fn wrong_call() -> ExitCode {
    eprint!("search: not understood\n\n{HELP}");
    ExitCode::from(2)
}

impl Options {
    fn read(mut words: &[&str]) -> Option<Options> {
        let mut options = Options { seed: 1, count: 100_000 };
        loop {
            words = match words {
                ["--seed", value, rest @ ..] => {
                    options.seed = value.parse().ok()?;
                    rest
                }
                ["--count", value, rest @ ..] => {
                    options.count = value.parse().ok()?;
                    rest
                }
                [] => return Some(options),
                _ => return None,
            }
        }
    }
}

fn story(place: &str, seed: &str) -> Option<ExitCode> {
    let place: usize = place.parse().ok()?;
    let variants = [&[RULES][..], &BROKEN].concat();
    let variant = variants.get(place)?;
    let (Outcome { put_in, came_out, .. }, story) = play(variant, seed.parse().ok()?, true);
    println!("{}", variant.name);
    story.iter().for_each(|line| println!("{line}"));
    println!("put in {put_in}, came out {came_out}");
    Some(ExitCode::SUCCESS)
}

/// What was found over many runs of one node.
#[derive(Default)]
struct Found {
    runs: u64,
    passed_on: usize,
    disputed: usize,
    keys: usize,
    /// The first loss, with its seed.
    loss: Option<(u64, Outcome)>,
}

/// Plays until the first loss.
fn play_all(variant: &Variant, options: &Options) -> Found {
    let mut found = Found::default();
    while found.runs < options.count && found.loss.is_none() {
        let seed = options.seed.wrapping_add(found.runs);
        let (outcome, _) = play(variant, seed, false);
        found.runs += 1;
        found.passed_on += outcome.passed_on;
        found.disputed += outcome.disputed;
        found.keys += outcome.keys;
        found.loss = outcome.is_loss().then_some((seed, outcome));
    }
    found
}

impl Found {
    fn line(&self, place: usize, variant: &Variant) -> String {
        let came_to = match &self.loss {
            Some((seed, Outcome { put_in, came_out, .. })) => format!(
                "put in {put_in}, came out {came_out} in run {} (--story {place} {seed})",
                self.runs
            ),
            None => format!("no loss in {} runs", self.runs),
        };
        format!("search: {}: {came_to}", variant.name)
    }
}

fn search(options: &Options) -> bool {
    let started = Instant::now();
    let found = play_all(&RULES, options);
    println!("{}", found.line(0, &RULES));
    println!(
        "search: with {} locks passed on, {} accounts disputed, {} keys in the register, in {} seconds",
        found.passed_on,
        found.disputed,
        found.keys,
        started.elapsed().as_secs()
    );
    let mut right = found.loss.is_none();
    for (place, variant) in (1..).zip(&BROKEN) {
        let found = play_all(variant, options);
        println!("{}", found.line(place, variant));
        right &= found.loss.is_some();
    }
    right
}
