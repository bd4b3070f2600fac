//! The node in plain Rust, with the same lines in and out as the proved one.

use reference::program;
use std::env;
use std::io;
use std::path::Path;
use std::process::ExitCode;

const HELP: &str = "\
usage: reference-node FOLDER

The node in plain Rust. In the folder is the owner's file `terms`; the file `accounts` is made at the first start.
Lines come on standard input, answers go to standard output, as docs/FORMATS.md has them.
";

fn main() -> ExitCode {
    let arguments: Vec<String> = env::args().skip(1).collect();
    let folder = match arguments.as_slice() {
        [help] if ["--help", "-h"].contains(&help.as_str()) => {
            print!("{HELP}");
            return ExitCode::SUCCESS;
        }
        [folder] => Path::new(folder),
        _ => {
            eprint!("reference-node: one argument, its folder\n\n{HELP}");
            return ExitCode::from(1);
        }
    };
    match program::run(folder, io::stdin().lock(), io::stdout().lock()) {
        Ok(()) => ExitCode::SUCCESS,
        Err(wrong) => {
            eprintln!("{wrong}");
            ExitCode::from(1)
        }
    }
}
