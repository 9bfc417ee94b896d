//! Makes a failing case smaller. A fault may end the program, so each try is a program of its own.

use crate::case::{parse, Line};
use std::io::Write;
use std::path::PathBuf;
use std::process::{Child, Command, ExitStatus, Output, Stdio};
use std::thread::sleep;
use std::time::{Duration, Instant};

/// A case takes a small part of a second: one that takes so long does not end.
const LONGEST: Duration = Duration::from_secs(20);

/// This program again, or what FUZZ_AGAIN names, which runs it: an emulated program cannot be run by its own path.
pub fn own_program(args: &[&str]) -> Command {
    let again = std::env::var_os("FUZZ_AGAIN").map(PathBuf::from);
    let mut command = Command::new(again.unwrap_or_else(|| std::env::current_exe().expect("the driver's path")));
    command.args(args);
    command
}

/// How the program ends. It is ended here where `at` tells the same thing for too long.
pub fn ended(child: &mut Child, at: impl Fn() -> Vec<u8>) -> ExitStatus {
    let (mut last, mut since) = (Vec::new(), Instant::now());
    loop {
        if let Some(status) = child.try_wait().expect("its status") {
            return status;
        }
        let now = at();
        if now != last {
            (last, since) = (now, Instant::now());
        } else if since.elapsed() > LONGEST {
            child.kill().ok();
        }
        sleep(Duration::from_millis(1));
    }
}

/// Shrinks a case of a run, which the driver makes again and prints.
pub fn case_of(memory: &str, seed: &str, case: &str) {
    let output = said(&["lines", memory, seed, case], &[]);
    let text = String::from_utf8_lossy(&output.stdout);
    shrink(memory, text.lines().filter_map(parse).collect());
}

pub fn from_input(memory: &str) -> Option<()> {
    let lines = std::io::stdin().lines().map(|line| parse(&line.ok()?)).collect::<Option<Vec<Line>>>()?;
    shrink(memory, lines);
    Some(())
}

fn shrink(memory: &str, mut lines: Vec<Line>) {
    let Some(fault) = fault(memory, &lines) else {
        println!("the case does not fail when it is repeated by itself:");
        lines.iter().for_each(|line| println!("{line}"));
        return;
    };
    let fails = |lines: &[Line]| self::fault(memory, lines).as_ref() == Some(&fault);
    loop {
        let before = lines.len();
        lines = with_fewer_lines(lines, &fails);
        let simpler = with_simpler_lines(&mut lines, &fails);
        if lines.len() == before && !simpler {
            break;
        }
    }
    println!("the smallest case found ({} lines; `repeat {memory}` reads it):", lines.len());
    lines.iter().for_each(|line| println!("{line}"));
    let said = tried(memory, &lines);
    println!("{}", if said.stderr.is_empty() { format!("ended by {}", said.status) } else { head(&said.stderr) });
}

/// What kind of fault a case ends with, if any: what the sanitizer calls it, or the call that did it, or how the program ended.
fn fault(memory: &str, lines: &[Line]) -> Option<String> {
    let output = tried(memory, lines);
    if output.status.success() {
        return None;
    }
    let said = String::from_utf8_lossy(&output.stderr);
    let by_sanitizer = said.split("AddressSanitizer: ").nth(1);
    let word = by_sanitizer.unwrap_or(&said).split_whitespace().next();
    Some(word.map_or_else(|| output.status.to_string(), str::to_string))
}

/// The first lines of what was said, which name the fault.
fn head(said: &[u8]) -> String {
    String::from_utf8_lossy(said).lines().take(8).collect::<Vec<_>>().join("\n")
}

/// Leaves out runs of lines, long ones first.
fn with_fewer_lines(mut lines: Vec<Line>, fails: &dyn Fn(&[Line]) -> bool) -> Vec<Line> {
    let mut run = lines.len() / 2;
    while run > 0 {
        let mut at = lines.len().saturating_sub(run);
        loop {
            let mut fewer = lines.clone();
            fewer.drain(at..(at + run).min(lines.len()));
            if fails(&fewer) {
                lines = fewer;
            }
            if at == 0 {
                break;
            }
            at = at.saturating_sub(run);
        }
        run /= 2;
    }
    lines
}

fn with_simpler_lines(lines: &mut [Line], fails: &dyn Fn(&[Line]) -> bool) -> bool {
    let mut any = false;
    for i in 0..lines.len() {
        for simpler in lines[i].simpler() {
            let mut tried = lines.to_vec();
            tried[i] = simpler.clone();
            if fails(&tried) {
                lines[i] = simpler;
                any = true;
                break;
            }
        }
    }
    any
}

fn tried(memory: &str, lines: &[Line]) -> Output {
    let text: String = lines.iter().map(|line| format!("{line}\n")).collect();
    said(&["repeat", memory], text.as_bytes())
}

/// What this program says when it is run with the arguments and the input, and how it ends.
fn said(args: &[&str], input: &[u8]) -> Output {
    let mut child =
        own_program(args).stdin(Stdio::piped()).stdout(Stdio::piped()).stderr(Stdio::piped()).spawn().expect("the driver again");
    // a program that ended before it read all is seen by its status
    child.stdin.take().expect("its input").write_all(input).ok();
    ended(&mut child, Vec::new);
    child.wait_with_output().expect("its status")
}
