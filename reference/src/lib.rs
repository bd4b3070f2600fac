//! What the proved programs do, once more in plain Rust: a second opinion that shares no code with them.

pub mod adversary;
pub mod case;
pub mod change;
pub mod conduct;
pub mod entry;
pub mod hex;
pub mod looking;
pub mod message;
pub mod node;
pub mod program;
pub mod random;
pub mod record;
pub mod refusal;
pub mod register;
pub mod run;
pub mod run_coverage;
pub mod run_steps;
pub mod sha256;
pub mod sheet;
pub mod sheet_lines;
pub mod sheet_table;
pub mod sheets;
pub mod start;
pub mod terms;
pub mod vectors;
pub mod world;

pub use sha256::sha256;
