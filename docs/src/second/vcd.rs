// The waveform of a script, from the second program's answers: reads tick lines on
// standard input and writes a VCD file on standard output.
//
// Build:   rustc --edition 2021 -O -o vcd vcd.rs
// Use:     vcd ticked SCRIPT | second | vcd SCRIPT
//
// `vcd ticked SCRIPT` writes the script with every `run` made a `tick`, so that the
// second program shows each tick. `vcd SCRIPT < ANSWERS` then pairs its answers
// with the lines of the script, which say what each answer belongs to.
//
// What the file must be: tick k of the script, from 0, stands at time #k; a last
// time comes after the last tick; one-bit wires sync, vsync, inactive, blank,
// request, transfer and 24-bit ones address, pixel0 to pixel3; after the first tick
// only changes are written; refused commands and errors are comments, which name
// their line; no date.

use std::env;
use std::fs;
use std::io::{self, BufRead, Write};

const LEVELS: [&str; 6] = ["sync", "vsync", "inactive", "blank", "request", "transfer"];
const BUSES: [&str; 5] = ["address", "pixel0", "pixel1", "pixel2", "pixel3"];

/// The first word of a line, where it has one and is no remark.
fn command(line: &str) -> Option<&str> {
    if line.starts_with(';') {
        return None;
    }
    if line.is_empty() {
        return None;
    }
    Some(line.split([' ', '\t']).find(|word| !word.is_empty()).unwrap_or(""))
}

/// The lines of a script, a character for each byte, without their ends.
fn lines_of(path: &str) -> Vec<String> {
    let bytes = fs::read(path).expect("the script");
    let text: String = bytes.iter().map(|&b| if b.is_ascii() { b as char } else { '?' }).collect();
    let mut lines: Vec<String> = text.split('\n').map(|l| l.strip_suffix('\r').unwrap_or(l).to_string()).collect();
    if lines.last().is_some_and(|l| l.is_empty()) {
        lines.pop();
    }
    lines
}

/// The eleven wires of a tick line: levels as 0 or 1, numbers as they stand.
fn wires(answer: &str) -> Vec<u32> {
    let mut found = Vec::new();
    let mut transfer = (0, 0);
    let mut pixels = Vec::new();
    for word in answer.split(' ') {
        match word.split_once('=') {
            Some(("address", "-")) => transfer = (0, 0),
            Some(("address", number)) => transfer = (1, u32::from_str_radix(&number[1..], 16).unwrap()),
            Some((_, level)) => found.push(level.parse().unwrap()),
            None => pixels.push(u32::from_str_radix(&word[1..], 16).unwrap()),
        }
    }
    found.push(transfer.0);
    found.push(transfer.1);
    found.extend(pixels);
    assert_eq!(found.len(), 11);
    found
}

fn mark(wire: usize) -> char {
    (b'a' + wire as u8) as char
}

struct Wave<W: Write> {
    out: W,
    ticks: u64,
    last: Vec<u32>,
}

impl<W: Write> Wave<W> {
    fn tick(&mut self, now: Vec<u32>) {
        let first = self.ticks == 0;
        let changed: Vec<usize> = (0..11).filter(|&w| first || self.last[w] != now[w]).collect();
        if !changed.is_empty() {
            writeln!(self.out, "#{}", self.ticks).unwrap();
        }
        if first {
            writeln!(self.out, "$dumpvars").unwrap();
        }
        for wire in changed {
            if wire < 6 {
                writeln!(self.out, "{}{}", now[wire], mark(wire)).unwrap();
            } else {
                writeln!(self.out, "b{:024b} {}", now[wire], mark(wire)).unwrap();
            }
        }
        if first {
            writeln!(self.out, "$end").unwrap();
        }
        self.ticks += 1;
        self.last = now;
    }

    fn comment(&mut self, line: usize, what: &str) {
        writeln!(self.out, "$comment line {line}: {what} $end").unwrap();
    }
}

fn head(out: &mut impl Write) {
    writeln!(out, "$version Obblestra trace $end").unwrap();
    writeln!(out, "$timescale 1 ns $end").unwrap();
    writeln!(out, "$scope module g364 $end").unwrap();
    for (wire, name) in LEVELS.iter().enumerate() {
        writeln!(out, "$var wire 1 {} {name} $end", mark(wire)).unwrap();
    }
    for (wire, name) in BUSES.iter().enumerate() {
        writeln!(out, "$var wire 24 {} {name} $end", mark(6 + wire)).unwrap();
    }
    writeln!(out, "$upscope $end").unwrap();
    writeln!(out, "$enddefinitions $end").unwrap();
}

/// The first number of a good line, where it has one.
fn asked(line: &str) -> Option<u64> {
    let word = line.split([' ', '\t']).filter(|w| !w.is_empty()).nth(1)?;
    Some(match word.strip_prefix('#') {
        Some(hex) => u64::from_str_radix(hex, 16).unwrap(),
        None => word.parse().unwrap(),
    })
}

fn main() {
    let words: Vec<String> = env::args().skip(1).collect();
    if words.len() == 2 && words[0] == "ticked" {
        let bytes = fs::read(&words[1]).expect("the script");
        let mut out = io::stdout().lock();
        for raw in bytes.split_inclusive(|&b| b == b'\n') {
            // `run` alone is an error, and `tick` alone is not.
            let at = raw.iter().position(|b| !b" \t".contains(b)).unwrap_or(0);
            let counted = raw[at..].starts_with(b"run ") || raw[at..].starts_with(b"run\t");
            let more = raw[at..].iter().skip(3).any(|b| !b" \t\r\n".contains(b));
            if counted && more {
                out.write_all(&[&raw[..at], b"tick", &raw[at + 3..]].concat()).unwrap();
            } else {
                out.write_all(raw).unwrap();
            }
        }
        return;
    }
    let mut answers = io::stdin().lock().lines().map(|l| l.unwrap()).peekable();
    let mut wave = Wave { out: io::BufWriter::new(io::stdout().lock()), ticks: 0, last: Vec::new() };
    head(&mut wave.out);
    for (number, line) in lines_of(&words[0]).iter().enumerate().map(|(i, l)| (i + 1, l)) {
        // An error names its line: a command may answer nothing, as `tick 0` does.
        let fault = format!("error {number} ");
        if let Some(answer) = answers.next_if(|a| a.starts_with(&fault)) {
            wave.comment(number, &answer[fault.len()..]);
            continue;
        }
        let Some(name) = command(line) else { continue };
        if name == "tick" || name == "run" {
            for _ in 0..asked(line).unwrap_or(1) {
                let answer = answers.next().expect("an answer to each tick");
                if answer.starts_with("refused ") {
                    wave.comment(number, &answer);
                    break;
                }
                wave.tick(wires(&answer));
            }
            continue;
        }
        let answer = answers.next().expect("an answer to each command");
        if answer.starts_with("refused ") {
            wave.comment(number, &answer);
        }
        // The bytes of a picture or a store follow their `ok`, 32 a line.
        if answer == "ok" && (name == "picture" || name == "store") {
            for _ in 0..asked(line).unwrap().div_ceil(32) {
                answers.next().expect("the bytes");
            }
        }
    }
    let ticks = wave.ticks;
    writeln!(wave.out, "#{ticks}").unwrap();
    wave.out.flush().unwrap();
}
