// The last picture of a script, from the second program's answers, as a binary PPM.
//
// Build:   rustc --edition 2021 -O -o ppm ppm.rs
// Use:     second < script | ppm script
//
// The screen is that of the time when the picture was drawn: parameters and control
// as they were last written and accepted. Width is 4 x Display. Height is
// VDisplay / 2; of an interlaced picture, which is woven of its two fields,
// VDisplay + 1. With no picture drawn it writes nothing.

use std::env;
use std::fs;
use std::io::{self, BufRead, Write};

fn number(word: &str) -> u32 {
    match word.strip_prefix('#') {
        Some(digits) => u32::from_str_radix(digits, 16).unwrap(),
        None => word.parse().unwrap(),
    }
}

/// The fourteen parameters in register order, and the control.
#[derive(Clone, Copy)]
struct Screen {
    parameters: [u32; 14],
    control: u32,
}

impl Screen {
    /// A parameter by its register.
    fn at(&self, address: u32) -> usize {
        self.parameters[(address - 0x021) as usize] as usize
    }

    fn interlaced(&self) -> bool {
        self.control & 2 != 0
    }

    fn width(&self) -> usize {
        4 * self.at(0x023)
    }

    fn height(&self) -> usize {
        if self.interlaced() { self.at(0x02A) + 1 } else { self.at(0x02A) / 2 }
    }
}

/// The rows of a picture of two fields, top to bottom. Half line by half line, as
/// they are numbered through the frame, each visible tick's four pixels go to the
/// column that its line gives them; what no tick fills stays black.
fn woven(screen: &Screen, bytes: &[u8]) -> Vec<u8> {
    let half = screen.at(0x02B) / 2;
    let display_begins = 2 * screen.at(0x021) + screen.at(0x022);
    let columns = display_begins..display_begins + screen.at(0x023);
    let before = screen.at(0x027) + screen.at(0x026) + screen.at(0x028) + screen.at(0x029);
    let vdisplay = screen.at(0x02A);
    let mut rows = vec![0; 3 * screen.width() * screen.height()];
    let mut ticks = bytes.chunks(12);
    for field_begins in [0, before + vdisplay] {
        let first = field_begins + before;
        // Of each pair of rows the lower one belongs to the field that begins with
        // a first half.
        let lower = first % 2 == 0;
        let mut line = 0;
        for half_line in first..first + vdisplay {
            let second_half = half_line % 2 == 1;
            if half_line > first && !second_half {
                line += 1;
            }
            let row = 2 * line + usize::from(lower);
            for unit in 0..half {
                let unit = unit + if second_half { half } else { 0 };
                if columns.contains(&unit) {
                    let place = 3 * (row * screen.width() + 4 * (unit - display_begins));
                    rows[place..place + 12].copy_from_slice(ticks.next().expect("a visible tick's pixels"));
                }
            }
        }
    }
    assert!(ticks.next().is_none());
    rows
}

fn main() {
    let path = env::args().nth(1).expect("ppm SCRIPT < ANSWERS");
    let script: String = fs::read(path).expect("the script").iter().map(|&b| b as char).collect();
    let mut answers = io::stdin().lock().lines().map(|l| l.unwrap()).peekable();
    let mut screen = Screen { parameters: [0; 14], control: 0 };
    let mut drawn: Option<(Screen, Vec<u8>)> = None;
    for (place, line) in script.split('\n').enumerate() {
        let line = line.strip_suffix('\r').unwrap_or(line);
        // An error names its line: a command may answer nothing, as `tick 0` does.
        let fault = format!("error {} ", place + 1);
        if answers.next_if(|a| a.starts_with(&fault)).is_some() || line.is_empty() || line.starts_with(';') {
            continue;
        }
        let words: Vec<&str> = line.split([' ', '\t']).filter(|w| !w.is_empty()).collect();
        let name = words[0];
        if name == "tick" {
            for _ in 0..words.get(1).map_or(1, |w| number(w)) {
                if answers.next().expect("an answer to each tick").starts_with("refused ") {
                    break;
                }
            }
            continue;
        }
        let answer = answers.next().expect("an answer to each command");
        if name == "run" {
            let done: u32 = answer["ran ".len()..].parse().unwrap();
            if done < number(words[1]) {
                answers.next().expect("its refusal");
            }
        }
        if answer != "ok" {
            continue;
        }
        match name {
            "write" => match number(words[1]) {
                address @ 0x021..=0x02E => screen.parameters[(address - 0x021) as usize] = number(words[2]),
                0x060 => screen.control = number(words[2]),
                _ => {}
            },
            "picture" | "store" => {
                let mut bytes = Vec::new();
                for _ in 0..number(words[1]).div_ceil(32) {
                    let row = answers.next().expect("the bytes");
                    bytes.extend((0..row.len() / 2).map(|i| u8::from_str_radix(&row[2 * i..2 * i + 2], 16).unwrap()));
                }
                if name == "picture" {
                    drawn = Some((screen, bytes));
                }
            }
            _ => {}
        }
    }
    if let Some((screen, bytes)) = drawn {
        let (width, height) = (screen.width(), screen.height());
        let rows = if screen.interlaced() { woven(&screen, &bytes) } else { bytes };
        assert_eq!(rows.len(), 3 * width * height);
        let mut out = io::stdout().lock();
        write!(out, "P6\n{width} {height}\n255\n").unwrap();
        out.write_all(&rows).unwrap();
    }
}
