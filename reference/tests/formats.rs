//! The examples of docs/FORMATS.md, section 6, through the plain node.

use reference::conduct::Conduct;
use reference::hex;
use reference::node::{Act, Node};
use reference::program::{answer, lines_out};
use reference::start::Start;
use reference::terms::Terms;

const FORMATS: &str = include_str!("../../docs/FORMATS.md");

/// The plain node and its file.
struct Plain {
    node: Node,
    file: Vec<u8>,
}

impl Plain {
    fn start(file: &[u8]) -> Plain {
        let deposits = vec![(10, 10); 2];
        let terms = Terms { gap: 110, window: 50, delay: 5, look: 13, deposits };
        let start = Start::read(&terms, Conduct::Rules, file).expect("the file is whole");
        let missing = start.missing.iter().flat_map(|record| record.write());
        Plain { node: start.node, file: file.iter().copied().chain(missing).collect() }
    }

    fn answer(&mut self, line: &str) -> String {
        match answer(&mut self.node, format!("{line}\n").as_bytes()) {
            Ok(acts) => {
                for act in &acts {
                    if let Act::Record(record) = act {
                        self.file.extend(record.write());
                    }
                }
                lines_out(&acts) + "ok\n"
            }
            Err(refusal) => format!("{refusal}\n"),
        }
    }

    /// What the example says comes out, line by line.
    fn play(&mut self, example: &str) {
        let mut out = String::new();
        for line in example.lines() {
            match line.split_at(2) {
                ("> ", line) => {
                    assert_eq!(out, "", "before {line}");
                    out = self.answer(line);
                }
                (_, "ready") => {}
                (_, line) => {
                    let (first, rest) = out.split_once('\n').expect("more comes out");
                    assert_eq!(first, line);
                    out = rest.into();
                }
            }
        }
        assert_eq!(out, "");
    }
}

/// The blocks of the section, without their fences.
fn blocks() -> Vec<&'static str> {
    let section = FORMATS.split("\n## ").find(|section| section.starts_with("6.")).unwrap();
    section.split("```\n").skip(1).step_by(2).collect()
}

/// The examples with lines, in their order.
fn examples() -> Vec<&'static str> {
    blocks().into_iter().filter(|block| block.starts_with(['<', '>'])).collect()
}

/// The node after the in was passed on and signed back, having looked at tick 190.
fn passed_on() -> Plain {
    let mut plain = Plain::start(&[]);
    let lines = examples()[0].lines().filter_map(|line| line.strip_prefix("> "));
    let lines = lines.filter(|line| !line.starts_with("pay") && !line.starts_with("1 03"));
    for line in lines.take_while(|line| !line.contains(" 020700000002")) {
        plain.answer(line);
    }
    for tick in 0..190 {
        assert_eq!(plain.answer(&format!("tick {}", tick + 1)), "ok\n");
    }
    plain
}

#[test]
fn a_payment_goes_through() {
    let mut plain = Plain::start(&[]);
    plain.play(examples()[0]);
    let records = blocks().into_iter().find(|block| block.starts_with("  0  05")).unwrap();
    let file: Vec<u8> =
        records.lines().flat_map(|line| hex::read(&line.as_bytes()[5..]).unwrap()).collect();
    assert_eq!(plain.file, file);
}

#[test]
fn neither_neighbour_answers() {
    passed_on().play(examples()[1]);
}

#[test]
fn a_start() {
    let mut plain = Plain::start(&passed_on().file);
    let sends = lines_out(&plain.node.send_again());
    let (start, rest) = examples()[2].split_once("< ready\n").unwrap();
    assert_eq!(start.replace("< ", ""), sends);
    plain.play(rest);
}
