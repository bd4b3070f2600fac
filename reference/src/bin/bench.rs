//! Times a proved program beside the plain one at the same work.

use reference::{hex, sha256, vectors};
use std::env;
use std::process::{Command, ExitCode, Stdio};
use std::time::{Duration, Instant};

const HELP: &str = "\
bench: times a proved program beside the plain one, each as a process of its own, best of 5 runs

usage: bench digest PROGRAM

  digest   PROGRAM is `digests`, run with
             --chain N    from 32 zero bytes on, N times the digest of the digest before
             --repeat N   N times the digest of one buffer of 1 MiB (byte i is 31 i + 7 modulo 256),
                          whose first byte is then set to the digest's first byte
           Both print the last digest.

A ratio above 1 says that the proved program is faster. 1 MB is 1,000,000 bytes.
Ends with 0 if the digests are the same, 1 if not, 2 if it was called wrongly.
";

const RUNS: usize = 5;
const CHAIN: u32 = 3_000_000;
const REPEAT: u32 = 300;
const MESSAGE: usize = 1 << 20;

fn main() -> ExitCode {
    let arguments: Vec<String> = env::args().skip(1).collect();
    let words: Vec<&str> = arguments.iter().map(String::as_str).collect();
    let done = match words.as_slice() {
        ["--help" | "-h" | "help", ..] => {
            print!("{HELP}");
            Ok(())
        }
        ["digest", program] => digest(program),
        // How bench runs the plain side as a process.
        ["plain-chain", count] => plain(count, chain),
        ["plain-repeat", count] => plain(count, repeat),
        _ => {
            eprint!("{HELP}");
            return ExitCode::from(2);
        }
    };
    match done {
        Ok(()) => ExitCode::SUCCESS,
        Err(reason) => {
            eprintln!("bench: {reason}");
            ExitCode::from(1)
        }
    }
}

/// One kind of work, and how each side is told to do it.
struct Work {
    title: &'static str,
    proved: &'static str,
    plain: &'static str,
    count: u32,
    /// How much is done in all, in the unit of the title.
    amount: f64,
    decimals: usize,
}

fn digest(program: &str) -> Result<(), String> {
    let works = [
        Work {
            title: "32-byte keys, digests/s",
            proved: "--chain",
            plain: "plain-chain",
            count: CHAIN,
            amount: f64::from(CHAIN),
            decimals: 0,
        },
        Work {
            title: "1 MiB messages, MB/s",
            proved: "--repeat",
            plain: "plain-repeat",
            count: REPEAT,
            amount: f64::from(REPEAT) * MESSAGE as f64 / 1e6,
            decimals: 1,
        },
    ];
    let rows: Vec<String> =
        works.iter().map(|work| row(program, work)).collect::<Result<_, _>>()?;
    println!("{:<24} {:>12} {:>12} {:>14}", "", "proved", "plain", "proved / plain");
    for row in rows {
        println!("{row}");
    }
    Ok(())
}

/// The table's row for `work`: both rates and their ratio.
fn row(program: &str, work: &Work) -> Result<String, String> {
    let (proved, plain) = best_times(program, work)?;
    let rate = |time: Duration| work.amount / time.as_secs_f64();
    Ok(format!(
        "{:<24} {:>12.*} {:>12.*} {:>14.2}",
        work.title,
        work.decimals,
        rate(proved),
        work.decimals,
        rate(plain),
        rate(proved) / rate(plain)
    ))
}

/// The shortest time of the proved program and of the plain one, which take turns.
fn best_times(program: &str, work: &Work) -> Result<(Duration, Duration), String> {
    let this = env::current_exe().map_err(|error| error.to_string())?;
    let count = work.count.to_string();
    let mut best = (Duration::MAX, Duration::MAX);
    for _ in 0..RUNS {
        let (proved_time, proved) = timed(Command::new(program).args([work.proved, &count]))?;
        let (plain_time, plain) = timed(Command::new(&this).args([work.plain, &count]))?;
        if proved != plain {
            return Err(format!(
                "{program} {} {count} differs\n  plain:  {}\n  proved: {}",
                work.proved,
                plain.escape_ascii(),
                proved.escape_ascii()
            ));
        }
        best = (best.0.min(proved_time), best.1.min(plain_time));
    }
    Ok(best)
}

/// How long `command` takes from its start to its end, and what it writes.
fn timed(command: &mut Command) -> Result<(Duration, Vec<u8>), String> {
    command.stdin(Stdio::null()).stderr(Stdio::inherit());
    let start = Instant::now();
    let output = command.output();
    let time = start.elapsed();
    let failed = |reason: String| format!("{}: {reason}", command.get_program().display());
    let output = output.map_err(|error| failed(error.to_string()))?;
    if !output.status.success() {
        return Err(failed(output.status.to_string()));
    }
    Ok((time, output.stdout))
}

fn plain(count: &str, work: fn(u32) -> [u8; 32]) -> Result<(), String> {
    let count = count.parse().map_err(|_| format!("{count}: not a number"))?;
    println!("{}", hex::write(&work(count)));
    Ok(())
}

fn chain(count: u32) -> [u8; 32] {
    (0..count).fold([0; 32], |key, _| sha256(&key))
}

fn repeat(count: u32) -> [u8; 32] {
    let mut buffer = vectors::pattern(MESSAGE);
    let mut digest = [0; 32];
    for _ in 0..count {
        digest = sha256(&buffer);
        buffer[0] = digest[0];
    }
    digest
}
