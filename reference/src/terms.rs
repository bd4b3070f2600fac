//! The owner's file `terms`.

use crate::entry::value;

pub const MOST_ACCOUNTS: usize = 16;
const MOST_BYTES: usize = 1_048_576;

/// The numbers that are agreed on, and what each of the two put into each account.
#[derive(Clone, Debug, PartialEq, Eq)]
pub struct Terms {
    pub gap: u32,
    pub window: u32,
    pub delay: u32,
    pub look: u32,
    /// Own and theirs.
    pub deposits: Vec<(u32, u32)>,
}

const WORDS: [&str; 4] = ["gap", "window", "delay", "look"];

/// A number of one of the four words, with its line.
#[derive(Clone, Copy)]
struct Given {
    number: u32,
    line: usize,
}

/// What was read so far, the four numbers in the order of `WORDS`.
#[derive(Default)]
struct Reader {
    given: [Option<Given>; 4],
    deposits: Vec<(u32, u32)>,
}

impl Terms {
    /// The terms, or what is wrong, as it follows the file's name in a message.
    pub fn read(text: &[u8]) -> Result<Terms, String> {
        if text.len() > MOST_BYTES {
            return Err(format!(": more than {MOST_BYTES} bytes"));
        }
        let mut reader = Reader::default();
        for (place, line) in text.split(|byte| *byte == b'\n').enumerate() {
            reader.line(place + 1, line).map_err(|wrong| at_line(place + 1, wrong))?;
        }
        reader.finish()
    }
}

fn at_line(line: usize, wrong: &str) -> String {
    format!(", line {line}: {wrong}")
}

impl Reader {
    fn line(&mut self, line: usize, text: &[u8]) -> Result<(), &'static str> {
        let entry = text.split(|byte| *byte == b'#').next().unwrap_or_default();
        let words: Vec<&[u8]> =
            entry.split(|byte| *byte == b' ').filter(|word| !word.is_empty()).collect();
        match *words {
            [] => Ok(()),
            [b"account", own, theirs] => self.account(within(own)?, within(theirs)?),
            [word, number] => {
                let place = WORDS.iter().position(|known| known.as_bytes() == word);
                self.number(place.ok_or("not understood")?, Given { number: within(number)?, line })
            }
            _ => Err("not understood"),
        }
    }

    fn account(&mut self, own: u32, theirs: u32) -> Result<(), &'static str> {
        if self.deposits.len() == MOST_ACCOUNTS {
            return Err("more than 16 accounts");
        }
        own.checked_add(theirs).ok_or("the deposits together are above 4294967295")?;
        self.deposits.push((own, theirs));
        Ok(())
    }

    fn number(&mut self, place: usize, given: Given) -> Result<(), &'static str> {
        match self.given[place].replace(given) {
            None => Ok(()),
            Some(_) => Err("a second line with this word"),
        }
    }

    fn finish(self) -> Result<Terms, String> {
        let missing = |word: &str| format!(": no line with {word}");
        let mut given = [Given { number: 0, line: 0 }; 4];
        for ((given, found), word) in given.iter_mut().zip(self.given).zip(WORDS) {
            *given = found.ok_or_else(|| missing(word))?;
        }
        if self.deposits.is_empty() {
            return Err(missing("account"));
        }
        let [gap, window, _, look] = given;
        let [g, w, d, l] = given.map(|given| u64::from(given.number));
        if l < 1 {
            return Err(at_line(look.line, "look is below 1"));
        }
        if w < l + d + 1 {
            return Err(at_line(window.line, "window is below look + delay + 1"));
        }
        if g < w + 3 * d + 3 * l {
            return Err(at_line(gap.line, "gap is below window + 3 delay + 3 look"));
        }
        let [gap, window, delay, look] = given.map(|given| given.number);
        Ok(Terms { gap, window, delay, look, deposits: self.deposits })
    }
}

/// A number of terms, which is at most the limit.
fn within(word: &[u8]) -> Result<u32, &'static str> {
    let value = value(word).ok_or("not understood")?;
    u32::try_from(value).map_err(|_| "a number above 4294967295")
}

#[cfg(test)]
mod tests {
    use super::*;

    const MILL: &str = "# the mill\ngap 110\nwindow 50\ndelay 5\nlook 13\naccount 10 11# mill\n  account  012 13  \n";

    fn mill() -> Terms {
        Terms { gap: 110, window: 50, delay: 5, look: 13, deposits: vec![(10, 11), (12, 13)] }
    }

    #[test]
    fn reads() {
        assert_eq!(Terms::read(MILL.as_bytes()), Ok(mill()));
        assert_eq!(Terms::read(MILL.trim_end().as_bytes()), Ok(mill()));
    }

    #[test]
    fn says_what_is_wrong() {
        for (from, to, wrong) in [
            ("gap 110", "gap 11x", ", line 2: not understood"),
            ("gap 110", "gap", ", line 2: not understood"),
            ("gap 110", "gap 110 1", ", line 2: not understood"),
            ("gap 110", "gap\t110", ", line 2: not understood"),
            ("gap 110", "gap 4294967296", ", line 2: a number above 4294967295"),
            ("gap 110", "look 13", ", line 5: a second line with this word"),
            ("gap 110", "", ": no line with gap"),
            ("window 50", "", ": no line with window"),
            ("gap 110", "gap 103", ", line 2: gap is below window + 3 delay + 3 look"),
            ("window 50", "window 18", ", line 3: window is below look + delay + 1"),
            ("look 13", "look 0", ", line 5: look is below 1"),
            ("10 11", "4294967295 1", ", line 6: the deposits together are above 4294967295"),
        ] {
            let text = MILL.replacen(from, to, 1);
            assert_eq!(Terms::read(text.as_bytes()), Err(wrong.into()), "{to}");
        }
        let many = format!("{MILL}{}", "account 1 1\n".repeat(15));
        assert_eq!(Terms::read(many.as_bytes()), Err(", line 22: more than 16 accounts".into()));
        let none: String = MILL.lines().take(5).map(|line| format!("{line}\n")).collect();
        assert_eq!(Terms::read(none.as_bytes()), Err(": no line with account".into()));
    }

    #[test]
    fn at_most_a_mebibyte() {
        let long = |length: usize| format!("{MILL}#{}", "x".repeat(length - MILL.len() - 1));
        assert_eq!(Terms::read(long(1 << 20).as_bytes()), Ok(mill()));
        let wrong = Err(": more than 1048576 bytes".into());
        assert_eq!(Terms::read(long((1 << 20) + 1).as_bytes()), wrong);
    }
}
