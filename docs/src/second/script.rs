// The bench script language: docs/SCRIPT.md, to the letter.

use crate::machine::{Machine, Signals, FIRST_CHECKSUM, PARAMETERS};
use crate::sheet;
use std::io::{self, Read, Write};

// The limits that docs/SCRIPT.md sets.
const LONGEST_LINE: u64 = 1_000;
const LARGEST_MEMORY: u32 = 1_048_576;
const LARGEST_PICTURE: u32 = 3_145_728;
const LARGEST_ROOM: u32 = 80;
const MOST_POKED: usize = 64;
const MOST_SHEET_BYTES: usize = 80;
const MOST_COMPARED: usize = 16;
const ROOM_BEFORE: u8 = 0xAA;
const BYTES_A_LINE: usize = 32;

/// Why a line is no command: the REASON of docs/SCRIPT.md.
#[derive(Clone, Copy)]
enum Fault {
    UnknownCommand,
    TooFewWords,
    TooManyWords,
    NotANumber,
    NumberTooLarge,
    BeyondTheMemory,
    TooLarge,
    TooLong,
}

impl Fault {
    fn reason(self) -> &'static str {
        match self {
            Fault::UnknownCommand => "unknown command",
            Fault::TooFewWords => "too few words",
            Fault::TooManyWords => "too many words",
            Fault::NotANumber => "not a number",
            Fault::NumberTooLarge => "number too large",
            Fault::BeyondTheMemory => "beyond the memory",
            Fault::TooLarge => "too large",
            Fault::TooLong => "too long",
        }
    }
}

/// A line understood: a command with its numbers, all limits checked.
enum Command {
    Write { address: u32, value: u32 },
    ReadRegister { address: u32 },
    Memory { length: usize },
    Poke { at: usize, bytes: Vec<u8> },
    Fill { at: usize, count: usize, start: u32, step: u32 },
    Tick { count: u32 },
    Run { count: u32 },
    Picture { length: usize },
    Nine,
    Sheet { bytes: Vec<u8> },
    Field { tag: u32, bytes: Vec<u8> },
    Store { room: usize, values: [u32; PARAMETERS] },
    Compare { left: Vec<u8>, right: Vec<u8> },
}

// ---------------------------------------------------------------------------
// From a line to a command.
// ---------------------------------------------------------------------------

/// A number: decimal, or hexadecimal after `#`, in either case of letters, with
/// leading zeros to any length, from 0 to 4,294,967,295.
fn number(word: &[u8]) -> Result<u32, Fault> {
    let (digits, base) = match word {
        [b'#', rest @ ..] => (rest, 16),
        _ => (word, 10),
    };
    if digits.is_empty() {
        return Err(Fault::NotANumber);
    }
    // All characters are judged before the size is.
    let mut value: u64 = 0;
    let mut fits = true;
    for &digit in digits {
        let digit = char::from(digit).to_digit(base).ok_or(Fault::NotANumber)?;
        if fits {
            value = value * u64::from(base) + u64::from(digit);
            fits = value <= u64::from(u32::MAX);
        }
    }
    if fits {
        Ok(value as u32)
    } else {
        Err(Fault::NumberTooLarge)
    }
}

/// A byte: a number, at most 255.
fn byte(word: &[u8]) -> Result<u8, Fault> {
    u8::try_from(number(word)?).map_err(|_| Fault::NumberTooLarge)
}

/// Bytes, from left to right.
fn bytes(words: &[&[u8]]) -> Result<Vec<u8>, Fault> {
    words.iter().map(|word| byte(word)).collect()
}

/// The count of words after the command's name.
fn count_words(words: &[&[u8]], fewest: usize, most: usize) -> Result<(), Fault> {
    if words.len() < fewest {
        Err(Fault::TooFewWords)
    } else if words.len() > most {
        Err(Fault::TooManyWords)
    } else {
        Ok(())
    }
}

/// A length under its limit.
fn at_most(length: u32, limit: u32) -> Result<usize, Fault> {
    if length > limit {
        Err(Fault::TooLarge)
    } else {
        Ok(length as usize)
    }
}

/// A stretch of the picture memory: `count` bytes from `at` on, none of them
/// beyond its end.
fn stretch(at: u32, count: u32, memory: usize) -> Result<(usize, usize), Fault> {
    if u64::from(at) + u64::from(count) > memory as u64 {
        Err(Fault::BeyondTheMemory)
    } else {
        Ok((at as usize, count as usize))
    }
}

/// Understands a line that is neither skipped nor too long. The command's name is
/// judged first, then the count of words, then each number from left to right,
/// then the rest.
fn understand(line: &[u8], memory: usize) -> Result<Command, Fault> {
    let words: Vec<&[u8]> = line
        .split(|&character| character == b' ' || character == b'\t')
        .filter(|word| !word.is_empty())
        .collect();
    let Some((&name, words)) = words.split_first() else {
        return Err(Fault::UnknownCommand);
    };
    match name {
        b"write" => {
            count_words(words, 2, 2)?;
            let address = number(words[0])?;
            let value = number(words[1])?;
            Ok(Command::Write { address, value })
        }
        b"read" => {
            count_words(words, 1, 1)?;
            let address = number(words[0])?;
            Ok(Command::ReadRegister { address })
        }
        b"memory" => {
            count_words(words, 1, 1)?;
            let length = number(words[0])?;
            Ok(Command::Memory { length: at_most(length, LARGEST_MEMORY)? })
        }
        b"poke" => {
            count_words(words, 2, 1 + MOST_POKED)?;
            let at = number(words[0])?;
            let bytes = bytes(&words[1..])?;
            let (at, _) = stretch(at, bytes.len() as u32, memory)?;
            Ok(Command::Poke { at, bytes })
        }
        b"fill" => {
            count_words(words, 4, 4)?;
            let at = number(words[0])?;
            let count = number(words[1])?;
            let start = number(words[2])?;
            let step = number(words[3])?;
            let (at, count) = stretch(at, count, memory)?;
            Ok(Command::Fill { at, count, start, step })
        }
        b"tick" => {
            count_words(words, 0, 1)?;
            let count = match words {
                [] => 1,
                [word, ..] => number(word)?,
            };
            Ok(Command::Tick { count })
        }
        b"run" => {
            count_words(words, 1, 1)?;
            let count = number(words[0])?;
            Ok(Command::Run { count })
        }
        b"picture" => {
            count_words(words, 1, 1)?;
            let length = number(words[0])?;
            Ok(Command::Picture { length: at_most(length, LARGEST_PICTURE)? })
        }
        b"nine" => {
            count_words(words, 0, 0)?;
            Ok(Command::Nine)
        }
        b"sheet" => {
            count_words(words, 0, MOST_SHEET_BYTES)?;
            let bytes = bytes(words)?;
            Ok(Command::Sheet { bytes })
        }
        b"field" => {
            count_words(words, 1, 1 + MOST_SHEET_BYTES)?;
            let tag = number(words[0])?;
            let bytes = bytes(&words[1..])?;
            Ok(Command::Field { tag, bytes })
        }
        b"store" => {
            count_words(words, 1 + PARAMETERS, 1 + PARAMETERS)?;
            let room = number(words[0])?;
            let mut values = [0; PARAMETERS];
            for (value, word) in values.iter_mut().zip(&words[1..]) {
                *value = number(word)?;
            }
            Ok(Command::Store { room: at_most(room, LARGEST_ROOM)?, values })
        }
        b"compare" => {
            // A `compare` with no `/` has too few words. The left side and then
            // the right, each its count and then its numbers.
            let Some(parting) = words.iter().position(|word| *word == b"/") else {
                return Err(Fault::TooFewWords);
            };
            let left = &words[..parting];
            let right = &words[parting + 1..];
            count_words(left, 0, MOST_COMPARED)?;
            let left = bytes(left)?;
            count_words(right, 0, MOST_COMPARED)?;
            let right = bytes(right)?;
            Ok(Command::Compare { left, right })
        }
        _ => Err(Fault::UnknownCommand),
    }
}

// ---------------------------------------------------------------------------
// From a command to its answer.
// ---------------------------------------------------------------------------

/// The one machine, and the picture memory lent to it.
struct Bench {
    machine: Machine,
    memory: Vec<u8>,
}

impl Bench {
    /// Does one command and writes its answer.
    fn answer(&mut self, command: Command, out: &mut impl Write) -> io::Result<()> {
        match command {
            Command::Write { address, value } => match self.machine.write(address, value) {
                Ok(()) => writeln!(out, "ok"),
                Err(refusal) => refused(refusal, out),
            },
            Command::ReadRegister { address } => match self.machine.read(address) {
                Ok(value) => writeln!(out, "#{value:06X}"),
                Err(refusal) => refused(refusal, out),
            },
            Command::Memory { length } => {
                self.memory = vec![0; length];
                writeln!(out, "ok")
            }
            Command::Poke { at, bytes } => {
                for (to, from) in self.memory.iter_mut().skip(at).zip(bytes) {
                    *to = from;
                }
                writeln!(out, "ok")
            }
            Command::Fill { at, count, start, step } => {
                let stretch = self.memory.iter_mut().skip(at).take(count);
                for (i, to) in stretch.enumerate() {
                    // (START + i x STEP) mod 256; i is below 2^21, so no sum here
                    // can pass 2^64.
                    let value = u64::from(start) + i as u64 * u64::from(step);
                    *to = (value % 256) as u8;
                }
                writeln!(out, "ok")
            }
            Command::Tick { count } => {
                for _ in 0..count {
                    match self.machine.tick(&self.memory) {
                        Ok(signals) => tick_line(&signals, out)?,
                        Err(refusal) => return refused(refusal, out),
                    }
                }
                Ok(())
            }
            Command::Run { count } => {
                for ran in 0..count {
                    if let Err(refusal) = self.machine.tick(&self.memory) {
                        writeln!(out, "ran {ran}")?;
                        return refused(refusal, out);
                    }
                }
                writeln!(out, "ran {count}")
            }
            Command::Picture { length } => {
                let mut buffer = vec![0; length];
                match self.machine.picture(&self.memory, &mut buffer) {
                    Ok(()) => {
                        writeln!(out, "ok")?;
                        hexadecimal(&buffer, out)
                    }
                    Err(refusal) => refused(refusal, out),
                }
            }
            Command::Nine => {
                // The reads of #0C0, #0C1, #0C2.
                let mut words = [0; 3];
                for (number, word) in words.iter_mut().enumerate() {
                    match self.machine.read(FIRST_CHECKSUM + number as u32) {
                        Ok(value) => *word = value,
                        Err(refusal) => return refused(refusal, out),
                    }
                }
                writeln!(out, "#{:06X} #{:06X} #{:06X}", words[0], words[1], words[2])
            }
            Command::Sheet { bytes } => match sheet::read_sheet(&bytes) {
                Ok(values) => {
                    write!(out, "ok")?;
                    for value in values {
                        write!(out, " {value}")?;
                    }
                    writeln!(out)
                }
                Err(refusal) => refused(refusal, out),
            },
            Command::Field { tag, bytes } => match sheet::sheet_field(tag, &bytes) {
                Ok(value) => writeln!(out, "{value}"),
                Err(refusal) => refused(refusal, out),
            },
            Command::Store { room, values } => {
                let mut room = vec![ROOM_BEFORE; room];
                match sheet::write_sheet(&values, &mut room) {
                    Ok(()) => {
                        writeln!(out, "ok")?;
                        hexadecimal(&room, out)
                    }
                    Err(refusal) => refused(refusal, out),
                }
            }
            Command::Compare { left, right } => match sheet::compare(&left, &right) {
                Ok(true) => writeln!(out, "same"),
                Ok(false) => writeln!(out, "different"),
                Err(refusal) => refused(refusal, out),
            },
        }
    }
}

fn refused(refusal: u32, out: &mut impl Write) -> io::Result<()> {
    writeln!(out, "refused {refusal}")
}

/// One tick's line. Levels as 0 or 1, `-` where no address is answered.
fn tick_line(signals: &Signals, out: &mut impl Write) -> io::Result<()> {
    write!(
        out,
        "sync={} vsync={} inactive={} blank={} request={} address=",
        u8::from(signals.sync),
        u8::from(signals.vertical_sync),
        u8::from(signals.frame_inactive),
        u8::from(signals.blank),
        u8::from(signals.request),
    )?;
    match signals.address {
        Some(address) => write!(out, "#{address:06X}")?,
        None => write!(out, "-")?,
    }
    for colour in signals.colours {
        write!(out, " #{colour:06X}")?;
    }
    writeln!(out)
}

/// Bytes in hexadecimal, 32 a line, two capital digits each, nothing between.
fn hexadecimal(bytes: &[u8], out: &mut impl Write) -> io::Result<()> {
    for line in bytes.chunks(BYTES_A_LINE) {
        for byte in line {
            write!(out, "{byte:02X}")?;
        }
        writeln!(out)?;
    }
    Ok(())
}

// ---------------------------------------------------------------------------
// From a script to its lines.
// ---------------------------------------------------------------------------

/// A line while it is being read. Of a line too long only its beginning is kept,
/// so that a line of any length needs no more room than one of 1,001 bytes.
struct Line {
    kept: Vec<u8>,
    /// All bytes so far, kept or not.
    length: u64,
    last: u8,
}

impl Line {
    fn new() -> Line {
        Line { kept: Vec::new(), length: 0, last: 0 }
    }

    fn add(&mut self, character: u8) {
        // One byte more than the longest line: the CR of a CR LF may follow it.
        if self.length <= LONGEST_LINE {
            self.kept.push(character);
        }
        self.length += 1;
        self.last = character;
    }

    /// The LF of a line's end was read: a CR just before it belongs to the end.
    fn drop_cr_of_line_end(&mut self) {
        if self.length > 0 && self.last == b'\r' {
            self.length -= 1;
            self.kept.truncate(self.length.min(LONGEST_LINE + 1) as usize);
        }
    }

    fn clear(&mut self) {
        self.kept.clear();
        self.length = 0;
        self.last = 0;
    }
}

/// Reads a script and writes its answers, line by line. It ends at the script's
/// end, or where the answers can no longer be written.
pub fn run(input: &mut impl Read, out: &mut impl Write) -> io::Result<()> {
    let mut bench = Bench { machine: Machine::new(), memory: Vec::new() };
    let mut line = Line::new();
    let mut line_number: u64 = 0;
    let mut chunk = [0; 65_536];
    loop {
        // Whoever waits for the answers to what was sent so far has them.
        out.flush()?;
        let got = match input.read(&mut chunk) {
            Ok(0) => break,
            Ok(got) => got,
            Err(error) if error.kind() == io::ErrorKind::Interrupted => continue,
            Err(error) => return Err(error),
        };
        for &character in &chunk[..got] {
            if character == b'\n' {
                line.drop_cr_of_line_end();
                line_number += 1;
                whole_line(&mut bench, &line, line_number, out)?;
                line.clear();
            } else {
                line.add(character);
            }
        }
    }
    // The last line may lack its end.
    if line.length > 0 {
        line_number += 1;
        whole_line(&mut bench, &line, line_number, out)?;
    }
    out.flush()
}

/// One whole line: too long, skipped, no command, or a command.
fn whole_line(
    bench: &mut Bench,
    line: &Line,
    line_number: u64,
    out: &mut impl Write,
) -> io::Result<()> {
    let understood = if line.length > LONGEST_LINE {
        // Whatever it holds.
        Err(Fault::TooLong)
    } else if line.kept.is_empty() || line.kept[0] == b';' {
        return Ok(());
    } else {
        understand(&line.kept, bench.memory.len())
    };
    match understood {
        Ok(command) => bench.answer(command, out),
        Err(fault) => writeln!(out, "error {line_number} {}", fault.reason()),
    }
}
