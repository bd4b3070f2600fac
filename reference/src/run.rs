//! Runs a proved node and the plain one side by side, over the same random steps.

use crate::entry::Entry;
use crate::node::{Act, Node};
use crate::program::{answer, lines_out, read_accounts, read_terms};
use crate::run_coverage::Coverage;
use crate::run_steps::{Between, Step, Steps, Stop};
use std::fs::{self, File};
use std::io::{self, BufRead, BufReader, Write};
use std::path::{Path, PathBuf};
use std::process::{Child, ChildStdin, ChildStdout, Command, ExitStatus, Stdio};
use std::sync::mpsc::{self, Receiver};
use std::thread;
use std::time::Duration;

/// How long the proved node may take for an answer.
const PATIENCE: Duration = Duration::from_secs(60);

/// The plain node, with its folder in memory.
struct Plain {
    terms: String,
    file: Vec<u8>,
    node: Node,
}

impl Plain {
    /// The node after a start, and what it prints then; or what it says to people.
    fn start(folder: &Path, terms: &str, file: &[u8]) -> Result<(Plain, String), String> {
        let read = read_terms(folder, terms.as_bytes())?;
        let start = read_accounts(folder, &read, file)?;
        let mut file = file[..start.whole].to_vec();
        file.extend(start.missing.iter().flat_map(|record| record.write()));
        let output = lines_out(&start.node.send_again()) + "ready\n";
        Ok((Plain { terms: terms.into(), file, node: start.node }, output))
    }

    /// The answer to a line, and its acts.
    fn line(&mut self, line: &[u8]) -> (String, Vec<Act>) {
        match answer(&mut self.node, line) {
            Ok(acts) => {
                for act in &acts {
                    if let Act::Record(record) = act {
                        self.file.extend(record.write());
                    }
                }
                (lines_out(&acts) + "ok\n", acts)
            }
            Err(refusal) => (format!("{refusal}\n"), Vec::new()),
        }
    }
}

/// A proved node that runs. What it says to people goes to a file beside its folder.
struct Proved {
    child: Child,
    input: ChildStdin,
    output: Receiver<Vec<u8>>,
}

impl Proved {
    fn start(program: &Path, folder: &Path) -> io::Result<Proved> {
        let errors = File::create(errors_path(folder))?;
        let mut child = Command::new(program)
            .arg(folder)
            .stdin(Stdio::piped())
            .stdout(Stdio::piped())
            .stderr(errors)
            .spawn()?;
        let input = child.stdin.take().expect("standard input is piped");
        let output = lines_of(child.stdout.take().expect("standard output is piped"));
        Ok(Proved { child, input, output })
    }

    /// The lines up to the one that ends an answer, or up to the end.
    fn answer(&mut self) -> String {
        let mut answer = Vec::new();
        while let Ok(line) = self.output.recv_timeout(PATIENCE) {
            answer.extend(&line);
            if line == b"ready\n" || line == b"ok\n" || line.starts_with(b"no ") {
                break;
            }
        }
        String::from_utf8_lossy(&answer).into_owned()
    }

    fn line(&mut self, line: &[u8]) -> String {
        // If it can't be written, the answer that is missing tells.
        let _ = self.input.write_all(line);
        self.answer()
    }

    /// Ends its input, after `last` perhaps. What it still printed, and how it ended.
    fn end(mut self, last: &[u8]) -> io::Result<(String, ExitStatus)> {
        let _ = self.input.write_all(last);
        drop(self.input);
        let rest: Vec<u8> = self.output.iter().flatten().collect();
        Ok((String::from_utf8_lossy(&rest).into_owned(), self.child.wait()?))
    }

    fn kill(mut self) -> io::Result<()> {
        self.child.kill()?;
        self.child.wait().map(|_| ())
    }
}

/// The lines that come out of a program, read beside everything else.
fn lines_of(output: ChildStdout) -> Receiver<Vec<u8>> {
    let (send, lines) = mpsc::channel();
    thread::spawn(move || {
        let mut output = BufReader::new(output);
        let mut line = Vec::new();
        while matches!(output.read_until(b'\n', &mut line), Ok(1..)) {
            if send.send(std::mem::take(&mut line)).is_err() {
                return;
            }
        }
    });
    lines
}

fn errors_path(folder: &Path) -> PathBuf {
    folder.with_extension("errors")
}

/// A run of both.
struct Run<'a> {
    program: &'a Path,
    folder: PathBuf,
    steps: Steps,
    plain: Plain,
    /// None while it is stopped.
    proved: Option<Proved>,
    coverage: &'a mut Coverage,
    /// All that was done, for people to read.
    story: Vec<u8>,
}

/// Runs both over `length` steps, in a folder that isn't there yet; the first difference.
pub fn run(
    program: &Path,
    folder: &Path,
    seed: u64,
    length: usize,
    coverage: &mut Coverage,
) -> Result<(), String> {
    let failed = |error: io::Error| format!("{}: {error}", folder.display());
    fs::create_dir_all(folder).map_err(failed)?;
    let mut steps = Steps::from_seed(seed);
    let terms = steps.terms();
    let text = steps.text(&terms);
    fs::write(folder.join("terms"), &text).map_err(failed)?;
    let (plain, printed) = Plain::start(folder, &text, &[])?;
    let mut proved = Proved::start(program, folder).map_err(failed)?;
    same("the first start", &printed, &proved.answer())?;
    let folder = folder.to_path_buf();
    let mut run = Run {
        program,
        folder,
        steps,
        plain,
        proved: Some(proved),
        coverage,
        story: text.into_bytes(),
    };
    run.coverage.terms(&terms);
    let done = (0..length).try_for_each(|_| run.step()).and_then(|()| run.same_file());
    let story = run.folder.with_extension("story");
    let done = done.map_err(|difference| match fs::write(&story, &run.story) {
        Ok(()) => format!("{difference}\n  all lines up to there are in {}", story.display()),
        Err(_) => difference,
    });
    if let Some(proved) = run.proved {
        proved.kill().map_err(|error| error.to_string())?;
    }
    done?;
    for path in [errors_path(&run.folder), story] {
        let _ = fs::remove_file(path);
    }
    fs::remove_dir_all(&run.folder).map_err(|error| error.to_string())
}

impl Run<'_> {
    fn step(&mut self) -> Result<(), String> {
        match self.steps.step(&self.plain.node, &self.plain.file) {
            Step::Line(line) => self.line(&line),
            Step::Stop(stop) => self.stop(stop),
        }
    }

    fn line(&mut self, line: &[u8]) -> Result<(), String> {
        self.story.extend(line);
        let before = self.plain.node.clone();
        let (expected, acts) = self.plain.line(line);
        let answered = self.proved.as_mut().map_or(String::new(), |proved| proved.line(line));
        let shown = shown(line);
        same(&format!("the line {shown}"), &expected, &answered)?;
        let entry = line.strip_suffix(b"\n").and_then(|line| Entry::read(line).ok());
        self.coverage.line(line, &expected);
        if let Some(entry) = entry.filter(|_| expected.ends_with("ok\n")) {
            self.coverage.taken(&before, &entry, &acts, &self.plain.node);
        }
        self.steps.saw(&self.plain.node, &acts);
        // Reading the file at each line would take most of the time.
        if self.plain.file.len() < 2000 { self.same_file() } else { Ok(()) }
    }

    /// Whether the file is that of the plain node, byte for byte.
    fn same_file(&self) -> Result<(), String> {
        let path = self.folder.join("accounts");
        let file = fs::read(&path).map_err(|error| format!("{}: {error}", path.display()))?;
        if file == self.plain.file {
            return Ok(());
        }
        let same = file.iter().zip(&self.plain.file).take_while(|(one, other)| one == other);
        Err(format!(
            "{} differs after {} bytes: plain has {}, proved {}",
            path.display(),
            same.count(),
            self.plain.file.len(),
            file.len()
        ))
    }

    fn stop(&mut self, stop: Stop) -> Result<(), String> {
        self.same_file()?;
        self.story.extend(format!("# stop: {}\n", stop.between.told()).bytes());
        if let Some(proved) = self.proved.take() {
            end(proved, &stop)?;
        }
        self.same_file()?;
        self.coverage.stopped(&stop);
        let (terms, file) = self.between(&stop.between);
        match Plain::start(&self.folder, &terms, &file) {
            Ok((plain, _)) => {
                self.coverage.started(&stop.between, file.len(), plain.file.len());
                self.start(&terms, &file)
            }
            Err(message) => {
                self.coverage.refused(&message);
                self.refused(&message, &terms, &file)?;
                let Plain { terms, file, .. } = &self.plain;
                self.start(&terms.clone(), &file.clone())
            }
        }
    }

    fn write_folder(&self, terms: &str, file: &[u8]) -> Result<(), String> {
        let written = fs::write(self.folder.join("terms"), terms)
            .and_then(|()| fs::write(self.folder.join("accounts"), file));
        written.map_err(|error| format!("{}: {error}", self.folder.display()))
    }

    /// Starts both where the plain one can start.
    fn start(&mut self, terms: &str, file: &[u8]) -> Result<(), String> {
        self.write_folder(terms, file)?;
        let (plain, printed) = Plain::start(&self.folder, terms, file)?;
        let mut proved =
            Proved::start(self.program, &self.folder).map_err(|error| error.to_string())?;
        let answered = proved.answer();
        self.plain = plain;
        self.proved = Some(proved);
        same("a start", &printed, &answered)?;
        self.same_file()
    }

    /// The terms and the file that the next start finds.
    fn between(&self, between: &Between) -> (String, Vec<u8>) {
        let Plain { terms, file, .. } = &self.plain;
        let mut file = file.clone();
        match between {
            Between::Nothing => {}
            Between::Cut(length) => file.truncate(*length),
            Between::Damage(place, byte) => file[*place] = *byte,
            Between::Append(bytes) => file.extend(bytes),
            Between::Terms(text) => return (text.clone(), file),
        }
        (terms.clone(), file)
    }

    /// The proved node refuses to start too, with the same message, and leaves the file as it is.
    fn refused(&self, message: &str, terms: &str, file: &[u8]) -> Result<(), String> {
        self.write_folder(terms, file)?;
        let failed = |error: io::Error| error.to_string();
        let proved = Proved::start(self.program, &self.folder).map_err(failed)?;
        let (printed, status) = proved.end(b"").map_err(failed)?;
        same("a refused start", "", &printed)?;
        same("a refused start: its status", "1", &format!("{}", status.code().unwrap_or(-1)))?;
        let said = fs::read(errors_path(&self.folder)).map_err(failed)?;
        let said = String::from_utf8_lossy(&said).into_owned();
        let said = said.lines().next().unwrap_or_default();
        same("a refused start: its message", place(message), place(said))?;
        let left = fs::read(self.folder.join("accounts")).map_err(failed)?;
        match left == file {
            true => Ok(()),
            false => Err("a refused start: the file was changed".into()),
        }
    }
}

/// A message up to the line of `terms`, where it names one: a line may be wrong in two ways.
/// All other messages are whole.
fn place(message: &str) -> &str {
    match message.rsplit_once(": ") {
        Some((place, _)) if place.contains("/terms, line ") => place,
        _ => message,
    }
}

/// Stops a proved node; what it prints must be what the plain one does.
fn end(proved: Proved, stop: &Stop) -> Result<(), String> {
    let failed = |error: io::Error| error.to_string();
    if stop.killed {
        return proved.kill().map_err(failed);
    }
    let last = stop.last_line.as_deref().unwrap_or_default();
    let (printed, status) = proved.end(last).map_err(failed)?;
    let expected = if last.is_empty() { "" } else { "no 1\n" };
    same("the end of the input", expected, &printed)?;
    same("the end of the input: status", "0", &format!("{}", status.code().unwrap_or(-1)))
}

impl Between {
    fn told(&self) -> String {
        match self {
            Between::Nothing => "nothing changes".into(),
            Between::Cut(length) => format!("the file is cut to {length} bytes"),
            Between::Damage(place, byte) => format!("byte {place} of the file is {byte}"),
            Between::Append(bytes) => format!("{} bytes are appended: {bytes:?}", bytes.len()),
            Between::Terms(text) => format!("other terms: {text:?}"),
        }
    }
}

fn same(at: &str, plain: &str, proved: &str) -> Result<(), String> {
    if plain == proved {
        return Ok(());
    }
    let [plain, proved] = [plain, proved].map(|text| shown(text.as_bytes()));
    Err(format!("at {at}\n  plain:   {plain}\n  proved:  {proved}"))
}

/// Bytes for people to read, a long text cut.
fn shown(bytes: &[u8]) -> String {
    let most = 6000;
    let first = bytes[..bytes.len().min(most)].escape_ascii();
    match bytes.len() {
        0 => "nothing".into(),
        length if length > most => format!("{first}.. ({length} bytes)"),
        _ => first.to_string(),
    }
}
