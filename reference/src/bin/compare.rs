//! Gives a proved program and the plain one the same lines, and compares their answers.

use reference::case::Case;
use reference::random::Random;
use reference::sheet_table::{self, Example};
use reference::vectors::{self, Vector};
use reference::{hex, run, run_coverage, sha256, sheet_lines, sheets};
use std::env;
use std::fs;
use std::io::{self, BufRead, BufReader, BufWriter, Write};
use std::path::Path;
use std::process::{self, ChildStdout, Command, ExitCode, Stdio};
use std::sync::mpsc::{self, Receiver};
use std::thread;
use std::time::Instant;

const HELP: &str = "\
compare: gives a proved program and the plain one the same lines, and compares their answers

usage: compare digest PROGRAM [--seed N] [--count N]
       compare sheet PROGRAM [--seed N] [--count N]
       compare sheet-table [--lines | --answers]
       compare runs PROGRAM [--seed N] [--seconds N] [--count N]

  digest   PROGRAM is `digests`. It gets published vectors, lengths at the edge of a block,
           random messages of 0 to 300 bytes, and damaged lines, each with a whole one after it.
  sheet    PROGRAM is `sheets`. It gets the lines of sheet-table, every first part of some sheets,
           and random lines of each of its four kinds, whole and damaged. Then it is written how often
           each answer came; one that never came, and can come, counts as a difference.

  runs     PROGRAM is `node`. Both go through whole runs: messages and calls that make sense, that nearly do,
           damaged and hostile lines, looks at a register, and stops, after which the file may be cut or damaged.
           Every line out, every message of a refused start and the file must be the same. Then it is written
           how often each thing was reached; one that never was counts as a difference.

  --seed N      seed of all that is random (1 if not given); run K of `runs` has the seed N + K
  --count N     how many random messages (10000 if not given), random lines of each kind (20000),
                or runs (no limit if not given)
  --seconds N   for how long `runs` goes on (60 if not given)

  sheet-table   writes small lines for `sheets` with the plain answers, or only one of the two.

Ends with 0 if all is the same, 1 at the first difference, 2 if it was called wrongly.
";

fn main() -> ExitCode {
    let arguments: Vec<String> = env::args().skip(1).collect();
    let words: Vec<&str> = arguments.iter().map(String::as_str).collect();
    if words.iter().any(|word| ["--help", "-h", "help"].contains(word)) {
        print!("{HELP}");
        return ExitCode::SUCCESS;
    }
    let done = match words.as_slice() {
        ["digest", rest @ ..] => Options::read(rest, 10_000).map(|options| digest(&options)),
        ["sheet", rest @ ..] => Options::read(rest, 20_000).map(|options| sheet(&options)),
        ["runs", rest @ ..] => Options::read(rest, usize::MAX).map(|options| runs(&options)),
        ["sheet-table"] => Ok(written(write_examples)),
        ["sheet-table", "--lines"] => Ok(written(write_lines)),
        ["sheet-table", "--answers"] => Ok(written(write_answers)),
        ["sheet-table", ..] => Err("sheet-table: --lines, --answers or nothing".into()),
        // The plain side by itself, in the place of `sheets`.
        ["plain-sheet"] => Ok(written(plain_sheet)),
        [] => Err("what is to be compared?".into()),
        [other, ..] => Err(format!("no such comparison: {other}")),
    };
    match done {
        Ok(Ok(summary)) => {
            print!("{summary}");
            ExitCode::SUCCESS
        }
        Ok(Err(difference)) => {
            eprintln!("{difference}");
            ExitCode::from(1)
        }
        Err(mistake) => {
            eprint!("compare: {mistake}\n\n{HELP}");
            ExitCode::from(2)
        }
    }
}

struct Options {
    program: String,
    seed: u64,
    count: usize,
    seconds: u64,
}

impl Options {
    fn read(mut words: &[&str], usual_count: usize) -> Result<Options, String> {
        let mut program = None;
        let mut seed = 1;
        let mut count = usual_count;
        let mut seconds = 60;
        loop {
            words = match words {
                ["--seed", value, rest @ ..] => {
                    seed = value.parse().map_err(|_| format!("--seed {value}: not a number"))?;
                    rest
                }
                ["--count", value, rest @ ..] => {
                    count = value.parse().map_err(|_| format!("--count {value}: not a number"))?;
                    rest
                }
                ["--seconds", value, rest @ ..] => {
                    seconds =
                        value.parse().map_err(|_| format!("--seconds {value}: not a number"))?;
                    rest
                }
                [path, rest @ ..] if program.is_none() && !path.starts_with("--") => {
                    program = Some(path.to_string());
                    rest
                }
                [other, ..] => return Err(format!("not understood: {other}")),
                [] => break,
            }
        }
        let program = program.ok_or("which program?")?;
        Ok(Options { program, seed, count, seconds })
    }
}

/// Compares `digests`; what was compared, or the first difference.
fn digest(options: &Options) -> Result<String, String> {
    let mut random = Random::from_seed(options.seed);
    let published = vectors::published();
    let edges = vectors::at_block_edges();
    let damaged = damaged_lines(&mut random);
    let summary = format!(
        "digest: {} published vectors, {} lengths at the edge of a block, {} random messages (seed {}), {} damaged lines",
        published.len(),
        edges.len(),
        options.count,
        options.seed,
        damaged.len()
    );

    let mut cases: Vec<Case> = published.iter().chain(&edges).map(vector_case).collect();
    cases.extend((0..options.count).map(|_| random_case(&mut random)));
    for line in damaged {
        cases.push(Case { line, known: Some("no".into()) });
        cases.push(random_case(&mut random));
    }
    compare(&options.program, cases.into_iter(), digest_line, |_, _| {})
        .map_err(|difference| format!("digest (seed {}): {difference}", options.seed))?;
    Ok(format!("{summary}: all the same\n"))
}

/// What `digests` is to answer: the digest of the message, or `no` if the line isn't hexadecimal.
fn digest_line(line: &[u8]) -> String {
    match hex::read(line) {
        Some(message) => hex::write(&sha256(&message)),
        None => "no".into(),
    }
}

fn vector_case(vector: &Vector) -> Case {
    Case { line: hex::write(&vector.message).into(), known: Some(vector.digest.into()) }
}

fn random_case(random: &mut Random) -> Case {
    let length = random.below(301);
    Case { line: random_digits(random, length), known: None }
}

/// A random message of `length` bytes in digits: all small, all capital, or each as it comes.
fn random_digits(random: &mut Random, length: usize) -> Vec<u8> {
    let mut digits = hex::write(&random.bytes(length)).into_bytes();
    let capitals = random.below(3);
    for digit in &mut digits {
        if random.below(2) < capitals {
            digit.make_ascii_uppercase();
        }
    }
    digits
}

/// Lines that aren't hexadecimal: an odd number of digits, or a byte among them that is no digit.
fn damaged_lines(random: &mut Random) -> Vec<Vec<u8>> {
    let mut lines = Vec::new();
    for length in 1..=34 {
        let mut odd = random_digits(random, length);
        odd.pop();
        lines.push(odd);
    }
    for other in (0..=255u8).filter(|byte| !byte.is_ascii_hexdigit() && *byte != b'\n') {
        for half in 0..2 {
            // The last byte of the message stays whole, so that no line ends in a carriage return.
            let length = 2 + random.below(100);
            let mut line = random_digits(random, length);
            line[2 * random.below(length - 1) + half] = other;
            lines.push(line);
        }
    }
    let nearly: [&[u8]; 6] = [b" 616263", b"61 6263", b"616263 ", b" ", b"  ", b"0x616263"];
    lines.extend(nearly.map(Vec::from));
    lines
}

/// Compares `sheets`; what was compared, or the first difference.
fn sheet(options: &Options) -> Result<String, String> {
    let table = sheet_table::examples();
    let summary = format!(
        "sheet: {} lines of the table, {} random lines of each kind (seed {})",
        table.len(),
        options.count,
        options.seed
    );
    let cases = table.into_iter().map(|example| example.case);
    let cases = cases.chain(sheet_lines::cases(options.seed, options.count));
    let mut coverage = Coverage::new();
    let compared = compare(&options.program, cases, sheets::answer, |line, answer| {
        coverage.count(line, answer);
    });
    compared.map_err(|difference| format!("sheet (seed {}): {difference}", options.seed))?;
    print!("{}", coverage.table());
    let wrong = coverage.wrong();
    if !wrong.is_empty() {
        return Err(format!("{summary}: all the same, but {}", wrong.join(", ")));
    }
    Ok(format!("{summary}: all the same\n"))
}

/// Compares `node` over whole runs; what was compared, or the first difference.
fn runs(options: &Options) -> Result<String, String> {
    let shared_memory = Path::new("/dev/shm");
    let place = match shared_memory.is_dir() {
        true => shared_memory.to_path_buf(),
        false => env::temp_dir(),
    };
    let place = place.join(format!("compare-runs-{}", process::id()));
    let program = fs::canonicalize(&options.program)
        .map_err(|error| format!("{}: {error}", options.program))?;
    let started = Instant::now();
    let mut coverage = run_coverage::Coverage::default();
    let mut done = 0;
    while done < options.count && started.elapsed().as_secs() < options.seconds {
        let seed = options.seed.wrapping_add(done as u64);
        let length = 50 + 1000 * (seed % 4) as usize;
        let folder = place.join(format!("run-{seed}"));
        run::run(&program, &folder, seed, length, &mut coverage).map_err(|difference| {
            format!("runs (again by --seed {seed} --count 1): {difference}")
        })?;
        done += 1;
    }
    let _ = fs::remove_dir(&place);
    print!("{}", coverage.table());
    let summary = format!("runs: {done} runs, {} lines (seed {})", coverage.lines, options.seed);
    let wrong = coverage.wrong();
    if !wrong.is_empty() {
        return Err(format!("{summary}: all the same, but {}", wrong.join(", ")));
    }
    Ok(format!("{summary}: all the same\n"))
}

/// How often each answer came, by the first word of the line, or the name of the change.
struct Coverage {
    counts: [[usize; ANSWERS.len()]; ROWS.len()],
}

const ANSWERS: [&str; 9] =
    ["sheet", "offered", "returned", "getting", "no 1", "no 4", "no 5", "no 6", "no 10"];

/// What lines begin with, and the answers that can come. The last is for all other lines.
const ROWS: [(&str, &[&str]); 10] = [
    ("read", &["sheet", "no 1"]),
    ("turn", &["sheet", "no 1"]),
    ("change offered", &["sheet", "no 1", "no 5", "no 6", "no 10"]),
    ("change passing", &["sheet", "no 1", "no 5", "no 6", "no 10"]),
    ("change paying", &["sheet", "no 1", "no 4", "no 10"]),
    ("change getting", &["sheet", "no 1", "no 4", "no 10"]),
    ("change returned", &["sheet", "no 1", "no 4", "no 10"]),
    ("change giving", &["sheet", "no 1", "no 4", "no 10"]),
    ("propose", &["offered", "returned", "getting", "no 1", "no 4", "no 5", "no 6"]),
    ("other", &["no 1"]),
];

impl Coverage {
    fn new() -> Coverage {
        Coverage { counts: [[0; ANSWERS.len()]; ROWS.len()] }
    }

    fn count(&mut self, line: &[u8], answer: &str) {
        let words: Vec<&[u8]> =
            line.split(|byte| *byte == b' ').filter(|word| !word.is_empty()).take(2).collect();
        let begins = |row: &str| {
            let mut words = words.iter();
            row.split(' ').all(|expected| words.next() == Some(&expected.as_bytes()))
        };
        let row = ROWS.iter().position(|(row, _)| begins(row)).unwrap_or(ROWS.len() - 1);
        let is = |kind: &str| answer == kind || kind == answer.split(' ').next().unwrap_or("");
        let column = ANSWERS.iter().position(|kind| is(kind)).expect("all answers have a column");
        self.counts[row][column] += 1;
    }

    /// The answers that came where they can't, or didn't where they can.
    fn wrong(&self) -> Vec<String> {
        let mut wrong = Vec::new();
        for ((row, possible), counts) in ROWS.iter().zip(&self.counts) {
            for (answer, count) in ANSWERS.iter().zip(counts) {
                match (possible.contains(answer), *count) {
                    (true, 0) => wrong.push(format!("{row}: {answer} never came")),
                    (false, 1..) => wrong.push(format!("{row}: {answer} came, which can't be")),
                    _ => {}
                }
            }
        }
        wrong
    }

    fn table(&self) -> String {
        let row = |name: &str, cells: Vec<String>| {
            let cells: String = cells.iter().map(|cell| format!(" {cell:>8}")).collect();
            format!("{name:<16}{cells}\n")
        };
        let mut table = row("", ANSWERS.map(String::from).into());
        for ((name, possible), counts) in ROWS.iter().zip(&self.counts) {
            let cell = |(answer, count): (&&str, &usize)| match count {
                0 if !possible.contains(answer) => "-".into(),
                _ => count.to_string(),
            };
            table += &row(name, ANSWERS.iter().zip(counts).map(cell).collect());
        }
        table
    }
}

/// Runs something that writes to standard output; nothing else is to be said.
fn written(write: fn(&mut dyn Write) -> io::Result<()>) -> Result<String, String> {
    let mut output = BufWriter::new(io::stdout().lock());
    let done = write(&mut output).and_then(|()| output.flush());
    done.map(|()| String::new()).map_err(|error| format!("compare: {error}"))
}

fn write_examples(output: &mut dyn Write) -> io::Result<()> {
    for Example { shows, case } in sheet_table::examples() {
        let line = case.line.escape_ascii();
        writeln!(output, "{shows}\n> {line}\n< {}", sheets::answer(&case.line))?;
    }
    Ok(())
}

fn write_lines(output: &mut dyn Write) -> io::Result<()> {
    for Example { case, .. } in sheet_table::examples() {
        output.write_all(&[&case.line[..], b"\n"].concat())?;
    }
    Ok(())
}

fn write_answers(output: &mut dyn Write) -> io::Result<()> {
    for Example { case, .. } in sheet_table::examples() {
        writeln!(output, "{}", sheets::answer(&case.line))?;
    }
    Ok(())
}

/// Answers lines on standard input as `sheets` does. One without its newline may be cut short.
fn plain_sheet(output: &mut dyn Write) -> io::Result<()> {
    let mut input = io::stdin().lock();
    let mut line = Vec::new();
    while input.read_until(b'\n', &mut line)? > 0 {
        match line.strip_suffix(b"\n") {
            Some(line) => writeln!(output, "{}", sheets::answer(line))?,
            None => writeln!(output, "no 1")?,
        }
        line.clear();
    }
    Ok(())
}

/// Runs `program` over the cases' lines; the first answer that isn't the one of `plain`.
/// `seen` gets each line and its answer, as long as they are the same.
fn compare(
    program: &str,
    cases: impl Iterator<Item = Case> + Send,
    plain: fn(&[u8]) -> String,
    seen: impl FnMut(&[u8], &str),
) -> Result<(), String> {
    let failed = |error: io::Error| format!("{program}: {error}");
    let mut child = Command::new(program)
        .stdin(Stdio::piped())
        .stdout(Stdio::piped())
        .spawn()
        .map_err(failed)?;
    let mut to_child = BufWriter::new(child.stdin.take().expect("standard input is piped"));
    let from_child = BufReader::new(child.stdout.take().expect("standard output is piped"));
    let (asked, to_compare) = mpsc::channel();
    // Written beside the reading: a full pipe on one side can't stop the other.
    let compared = thread::scope(|scope| {
        scope.spawn(move || {
            for case in cases {
                let line = [&case.line[..], b"\n"].concat();
                let written = to_child.write_all(&line);
                // If the program stops early, the answers that are missing tell.
                if asked.send(case).is_err() || written.is_err() {
                    return;
                }
            }
        });
        let compared = compare_answers(from_child, to_compare, plain, seen);
        if compared.is_err() {
            // What is still being written to it then fails. If it has ended already, so much the better.
            let _ = child.kill();
        }
        compared
    });
    let status = child.wait().map_err(failed)?;
    compared.map_err(|difference| format!("{program}: {difference}"))?;
    if !status.success() {
        return Err(format!("{program} answers all lines, and ends with {status}"));
    }
    Ok(())
}

/// Compares the program's answers with those of `plain`, line by line, until there are no more.
fn compare_answers(
    mut answers: BufReader<ChildStdout>,
    cases: Receiver<Case>,
    plain: fn(&[u8]) -> String,
    mut seen: impl FnMut(&[u8], &str),
) -> Result<(), String> {
    let mut answer = Vec::new();
    let mut next = || {
        answer.clear();
        answers.read_until(b'\n', &mut answer).map_err(|error| error.to_string())?;
        Ok::<Vec<u8>, String>(answer.clone())
    };
    for (place, case) in cases.iter().enumerate() {
        let expected = plain(&case.line);
        let answered = next()?;
        let same = answered.strip_suffix(b"\n") == Some(expected.as_bytes());
        let right = case.known.as_ref().is_none_or(|known| *known == expected);
        if !same || !right {
            return Err(difference(place + 1, &case, &expected, &answered));
        }
        seen(&case.line, &expected);
    }
    let more = next()?;
    if !more.is_empty() {
        return Err(format!("answers more than it was asked: {}", shown(&more)));
    }
    Ok(())
}

fn difference(number: usize, case: &Case, expected: &str, answered: &[u8]) -> String {
    let known = case.known.as_ref().map_or("-".into(), |known| shown(known.as_bytes()));
    let proved = if answered.is_empty() { "nothing".into() } else { shown(answered) };
    let plain = shown(expected.as_bytes());
    let line = shown(&case.line);
    // Both may be long and differ only late.
    let same = expected.bytes().zip(answered).take_while(|(one, other)| one == *other).count();
    format!(
        "line {number} differs\n  line:    {line}\n  known:   {known}\n  plain:   {plain}\n  proved:  {proved}\n  the first {same} bytes of the answers are the same"
    )
}

/// A line for people to read: bytes that aren't printable escaped, a long one cut.
fn shown(line: &[u8]) -> String {
    let most = 640;
    let line = line.strip_suffix(b"\n").unwrap_or(line);
    let first = line[..line.len().min(most)].escape_ascii();
    match line.len() {
        0 => "the empty line".into(),
        length if length > most => format!("{first}.. ({length} bytes)"),
        _ => first.to_string(),
    }
}
