//! The program `reference-node`: a folder with `terms` and `accounts`, lines in and lines out.

use crate::conduct::Conduct;
use crate::entry::Entry;
use crate::hex;
use crate::node::{Act, Node};
use crate::refusal::Refusal;
use crate::start::{Refused, Start};
use crate::terms::Terms;
use std::fs::{self, File, OpenOptions, TryLockError};
use std::io::{self, BufRead, ErrorKind, Write};
use std::path::Path;

/// A node with its file.
pub struct Program {
    node: Node,
    accounts: File,
}

/// Works with the folder until the input ends; what stopped it, if something did.
pub fn run(folder: &Path, mut input: impl BufRead, mut output: impl Write) -> Result<(), String> {
    let (mut program, start) = Program::start(folder)?;
    let failed = |error: io::Error| format!("node: {error}");
    writeln!(output, "{start}ready").and_then(|()| output.flush()).map_err(failed)?;
    let mut line = Vec::new();
    while input.read_until(b'\n', &mut line).map_err(failed)? > 0 {
        let answer = program.line(&line).map_err(failed)?;
        output.write_all(answer.as_bytes()).and_then(|()| output.flush()).map_err(failed)?;
        line.clear();
    }
    Ok(())
}

impl Program {
    /// The program at its start, and the lines that it sends then.
    fn start(folder: &Path) -> Result<(Program, String), String> {
        let [terms_path, path] = ["terms", "accounts"].map(|name| folder.join(name));
        let failed = |error: io::Error| format!("node: {}: {error}", path.display());
        let text = fs::read(&terms_path)
            .map_err(|error| format!("node: {}: {error}", terms_path.display()))?;
        let terms = read_terms(folder, &text)?;
        let is_new = !path.exists();
        let accounts = open(&path)?;
        let file = fs::read(&path).map_err(failed)?;
        let start = read_accounts(folder, &terms, &file)?;
        make_whole(&accounts, &start).map_err(failed)?;
        if is_new {
            File::open(folder).and_then(|folder| folder.sync_all()).map_err(failed)?;
        }
        let node = start.node;
        let lines = lines_out(&node.send_again());
        Ok((Program { node, accounts }, lines))
    }

    /// The answer to a line, which may lack its newline.
    fn line(&mut self, line: &[u8]) -> io::Result<String> {
        let looked = self.node.looked;
        let answer = answer(&mut self.node, line);
        let acts = match answer {
            Ok(acts) => acts,
            Err(refusal) => return Ok(format!("{refusal}\n")),
        };
        self.tell_late_look(looked);
        self.record(&acts)?;
        Ok(lines_out(&acts) + "ok\n")
    }

    /// Carries out what concerns the file. All records come before the sync, and what leaves comes after it.
    fn record(&mut self, acts: &[Act]) -> io::Result<()> {
        let mut gathered = Vec::new();
        for act in acts {
            match act {
                Act::Record(record) => gathered.extend(record.write()),
                Act::Sync => {
                    self.accounts.write_all(&gathered)?;
                    self.accounts.sync_all()?;
                    gathered.clear();
                }
                Act::Send(..) | Act::ShowSheet(_) | Act::ShowKey(..) => {}
            }
        }
        Ok(())
    }

    fn tell_late_look(&self, before: Option<u32>) {
        let Some(tick) = self.node.looked else { return };
        let look = self.node.terms.look;
        match before {
            None => eprintln!(
                "node: first look since the start, at tick {tick}: when the last was is not known"
            ),
            Some(last) if tick - last > look => eprintln!(
                "node: late look at tick {tick}: the last was at tick {last}, and look is {look}"
            ),
            Some(_) => {}
        }
    }
}

/// The terms, or the message that refuses them.
pub fn read_terms(folder: &Path, text: &[u8]) -> Result<Terms, String> {
    Terms::read(text).map_err(|wrong| format!("node: {}/terms{wrong}", folder.display()))
}

/// The node of a file at its start, or the message that refuses the file.
pub fn read_accounts(folder: &Path, terms: &Terms, file: &[u8]) -> Result<Start, String> {
    Start::read(terms, Conduct::Rules, file).map_err(|refused| {
        let wrong = match refused {
            Refused::Damaged(byte) => format!(", byte {byte}: damaged"),
            Refused::OtherAccounts => ": not the accounts of terms".into(),
        };
        format!("node: {}/accounts{wrong}", folder.display())
    })
}

/// Opens the file for appending and keeps other programs of this kind out of it.
fn open(path: &Path) -> Result<File, String> {
    let failed = |error: io::Error| format!("node: {}: {error}", path.display());
    let file = OpenOptions::new().append(true).create(true).open(path).map_err(failed)?;
    match file.try_lock() {
        Ok(()) => Ok(file),
        Err(TryLockError::WouldBlock) => {
            Err(format!("node: another program works with {}", path.display()))
        }
        Err(TryLockError::Error(error)) if error.kind() == ErrorKind::Unsupported => Ok(file),
        Err(TryLockError::Error(error)) => Err(failed(error)),
    }
}

/// Cuts the file back to its whole records, adds the first sheets that are missing, and syncs it.
fn make_whole(mut accounts: &File, start: &Start) -> io::Result<()> {
    accounts.set_len(start.whole as u64)?;
    for record in &start.missing {
        accounts.write_all(&record.write())?;
    }
    accounts.sync_all()
}

/// What the node makes of a line. One without its newline may be cut short.
pub fn answer(node: &mut Node, line: &[u8]) -> Result<Vec<Act>, Refusal> {
    let line = line.strip_suffix(b"\n").ok_or(Refusal::Unreadable)?;
    node.enter(&Entry::read(line)?)
}

/// The lines that acts print, those that leave the node.
pub fn lines_out(acts: &[Act]) -> String {
    acts.iter().map(line_out).collect()
}

fn line_out(act: &Act) -> String {
    match act {
        Act::Record(_) | Act::Sync => String::new(),
        Act::Send(account, messages) => {
            let words: String = messages
                .iter()
                .map(|message| format!(" {}", hex::write(&message.write())))
                .collect();
            format!("send {account}{words}\n")
        }
        Act::ShowSheet(sheet) => format!("show {} {}\n", sheet.account, hex::write(&sheet.write())),
        Act::ShowKey(account, key) => format!("key {account} {}\n", hex::write(key)),
    }
}
