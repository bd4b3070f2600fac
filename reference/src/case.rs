//! What both programs are given.

/// A line for both programs, without its newline. Where the answer is known without running either, both are held to it.
#[derive(Clone, Debug, PartialEq, Eq)]
pub struct Case {
    pub line: Vec<u8>,
    pub known: Option<String>,
}
