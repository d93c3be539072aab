//! How often each number came at one of the products, and what became of each command.

use crate::format::{self, Command, COMMANDS, LAST_NUMBER, LAST_NUMBER_OF_PART};
use crate::reference::{Layer, Outcome};
use std::collections::BTreeMap;

pub struct Numbers {
    layer: Layer,
    times: BTreeMap<u64, usize>,
    /// By command and number, how many jobs stopped there; under 0 the accepted jobs that have it.
    commands: BTreeMap<(u8, u64), usize>,
}

impl Numbers {
    pub fn new(layer: Layer) -> Numbers {
        Numbers {
            layer,
            times: BTreeMap::new(),
            commands: BTreeMap::new(),
        }
    }

    pub fn add(&mut self, job: &[u8], outcome: &Outcome) {
        *self.times.entry(outcome.number).or_insert(0) += 1;
        let mut bytes: Vec<u8> = if outcome.number == 0 {
            let whole = format::cut(job).expect("an accepted job is a list of commands");
            whole.iter().map(|command| command[0]).collect()
        } else if outcome.number > 3 {
            vec![job[outcome.offset]]
        } else {
            // 1 to 3 are met before there is a command.
            vec![]
        };
        bytes.sort_unstable();
        bytes.dedup();
        for byte in bytes {
            *self.commands.entry((byte, outcome.number)).or_insert(0) += 1;
        }
    }

    fn name(&self) -> &'static str {
        match self.layer {
            Layer::Engine => "the engine",
            Layer::Part => "the part",
        }
    }

    fn last(&self) -> u64 {
        match self.layer {
            Layer::Engine => LAST_NUMBER,
            Layer::Part => LAST_NUMBER_OF_PART,
        }
    }

    /// How often each number came, and the pair of command and number that came least.
    pub fn print(&self) {
        let times: Vec<String> = self
            .times
            .iter()
            .map(|(i, n)| format!("{i}: {n}"))
            .collect();
        let name = self.name();
        println!("how often each number came at {name}: {}", times.join(", "));
        if let Some((&(byte, number), times)) = self.commands.iter().min_by_key(|pair| pair.1) {
            let command = char::from(byte);
            println!("least often: {command} with number {number}, {times} times");
        }
    }

    /// Each command with each number that it must meet, 0 among them.
    fn wanted(&self) -> Vec<(u8, u64)> {
        let of_command = |command: &Command| {
            let numbers = [vec![0], command.numbers(self.layer)].concat();
            let byte = command.byte;
            numbers.into_iter().map(move |number| (byte, number))
        };
        COMMANDS.iter().flat_map(of_command).collect()
    }

    /// What should have come and did not, and what came that the table of commands does not name: 20 at
    /// the engine, too.
    pub fn complaints(&self) -> Vec<String> {
        let name = self.name();
        let mut list = Vec::new();
        let mut never: Vec<u64> = (0..=self.last()).collect();
        never.retain(|number| !self.times.contains_key(number));
        list.extend(
            never
                .iter()
                .map(|i| format!("number {i} never came at {name}")),
        );
        let wanted = self.wanted();
        for &(byte, number) in &wanted {
            if !self.commands.contains_key(&(byte, number)) {
                let command = char::from(byte);
                list.push(format!("{command} never met number {number} at {name}"));
            }
        }
        for pair in self.commands.keys().filter(|pair| !wanted.contains(pair)) {
            let (byte, number) = (char::from(pair.0), pair.1);
            list.push(format!(
                "{byte} met number {number} at {name}, not named in format.rs"
            ));
        }
        list
    }
}
