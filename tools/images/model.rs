//! Holds stored images to document 01 by another way than the engine: runs the files `made` and `next` of each folder through the model
//! of tools/fuzz, which is written from 01 in Rust, and compares every answer and every word. No part of the engine is linked.
#![allow(dead_code)]

#[path = "../fuzz/driver/answer.rs"]
mod answer;
#[path = "../fuzz/driver/call.rs"]
mod call;
#[path = "../fuzz/driver/image.rs"]
mod image;
#[path = "../fuzz/driver/model.rs"]
mod model;
#[path = "../fuzz/driver/model_names.rs"]
mod model_names;
#[path = "../fuzz/driver/refusal.rs"]
mod refusal;
#[path = "../fuzz/driver/rules.rs"]
mod rules;
#[path = "../fuzz/driver/shapes.rs"]
mod shapes;

use answer::Answer;
use call::{Call, Which, CALLS};
use rules::{Hits, RULES, RULE_NAMES};
use shared::{formed, raw};

struct Session {
    stored: Vec<u32>,
    now: Vec<u32>,
    names: Vec<u8>,
    /// The words that a list in `next` tells, while it is read.
    listed: Option<Vec<u32>>,
    calls: u64,
    hits: Hits,
}

impl Session {
    fn answer(&mut self, call: &Call) -> Answer {
        self.calls += 1;
        match call.which {
            Which::Resolve | Which::FromLeft | Which::AtOnce => model_names::operator_due(call),
            Which::CheckNames | Which::CheckName | Which::CountNames | Which::ShowName | Which::CompareNames | Which::FindName => {
                model_names::names_due(call, &self.names)
            }
            _ => {
                let right = formed::well_formed(&self.now);
                model::due(call, &mut self.now, right, &mut self.hits)
            }
        }
    }

    fn close_list(&mut self) -> Result<(), String> {
        match self.listed.take() {
            Some(due) => same(&self.now, &due),
            None => Ok(()),
        }
    }

    fn line(&mut self, text: &str) -> Result<(), String> {
        let (text, answer) = text.split_once(" -> ").unwrap_or((text, ""));
        let (head, further) = text.split_once(':').unwrap_or((text, ""));
        let mut parts = head.split_whitespace();
        let verb = parts.next().ok_or("no verb")?;
        let numbers = |parts: &mut dyn Iterator<Item = &str>| {
            parts.map(|part| part.parse().map_err(|_| format!("'{part}' is no word"))).collect::<Result<Vec<u32>, String>>()
        };
        let (words, further) = (numbers(&mut parts)?, numbers(&mut further.split_whitespace())?);
        if let ("at", [first], Some(listed)) = (verb, words.as_slice(), &mut self.listed) {
            listed[*first as usize..][..further.len()].copy_from_slice(&further);
            return Ok(());
        }
        self.close_list()?;
        match (verb, words.as_slice()) {
            ("length", [n]) => self.now.resize(*n as usize, 0),
            ("set", [i, word]) => self.now[*i as usize] = *word,
            ("load", []) => self.now.clone_from(&self.stored),
            ("words", [n]) => self.listed = Some(vec![0; *n as usize]),
            (name, args) => {
                let (which, ..) = CALLS.iter().find(|(_, other, _)| *other == name).ok_or("no such call")?;
                let call = Call { extra: further, ..Call::with(*which, args) };
                let due = told(&self.answer(&call), *which);
                if due != answer {
                    return Err(format!("{text}: the model says '{due}', stored is '{answer}'"));
                }
            }
        }
        Ok(())
    }

    fn file(&mut self, folder: &str, name: &str) -> Result<(), String> {
        let text = std::fs::read_to_string(format!("{folder}/{name}")).map_err(|error| format!("{folder}/{name}: {error}"))?;
        for (n, line) in text.lines().enumerate().filter(|(_, line)| !line.is_empty() && !line.starts_with('#')) {
            self.line(line).map_err(|fault| format!("{folder}/{name}:{}: {fault}", n + 1))?;
        }
        self.close_list().map_err(|fault| format!("{folder}/{name}: {fault}"))
    }

    fn folder(&mut self, folder: &str) -> Result<(), String> {
        let read = |name: &str| std::fs::read(format!("{folder}/{name}")).map_err(|error| format!("{folder}/{name}: {error}"));
        self.stored = read("image")?.chunks_exact(4).map(|word| u32::from_le_bytes(word.try_into().unwrap())).collect();
        self.names = read("names")?;
        self.now.clear();
        self.file(folder, "made")?;
        same(&self.now, &self.stored).map_err(|fault| format!("{folder}/made: {fault}"))?;
        self.file(folder, "next")
    }
}

fn same(now: &[u32], due: &[u32]) -> Result<(), String> {
    if now.len() != due.len() {
        return Err(format!("the model has {} words, stored are {}", now.len(), due.len()));
    }
    match now.iter().zip(due).position(|(n, d)| n != d) {
        Some(i) => Err(format!("the model's word {i} is {}, stored is {}", now[i], due[i])),
        None => Ok(()),
    }
}

fn told(answer: &Answer, which: Which) -> String {
    let mut told = ["done", "yes", "more", "failed", "refused", "unopened"][answer.kind as usize].to_string();
    if answer.kind >= raw::FAILED {
        told += &format!(" {}", answer.number);
    }
    for value in &answer.values[..answer.count as usize] {
        told += &format!(" {value}");
    }
    if matches!(which, Which::Open | Which::OpenEqual | Which::Work) {
        told += &format!(" steps {}", answer.steps);
    }
    told
}

fn main() {
    let mut session = Session { stored: vec![], now: vec![], names: vec![], listed: None, calls: 0, hits: [0; RULES] };
    let (mut folders, mut faults) = (0, 0);
    for folder in std::env::args().skip(1) {
        folders += 1;
        if let Err(fault) = session.folder(&folder) {
            println!("{fault}");
            faults += 1;
        }
    }
    println!("{folders} images, {} calls; {faults} differ from the model", session.calls);
    let rules: Vec<String> = RULE_NAMES.iter().zip(session.hits).map(|(name, hits)| format!("{name} {hits}")).collect();
    println!("pairs by rule: {}", rules.join("; "));
    std::process::exit(i32::from(faults > 0 || folders == 0));
}
