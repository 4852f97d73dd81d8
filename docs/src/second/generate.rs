// Random bench scripts for comparing the two programs.
//
// Build:   rustc --edition 2021 -O -o generate generate.rs
// Use:     generate SEED > script            a script that asks much of the machine
//          generate damaged SEED > script    no script at all, or a spoilt one (damaged.rs)
//          generate woven SEED > script      a shorter one that draws at least one picture
//
// SEED is a whole number; one seed gives one script, always the same. A script is
// a few hundred lines. About half its screens are interlaced. Most are accepted, for
// they are put together within the limits of document 01, "Refusal numbers", and of
// document 02, Q-4; the others miss a limit by one step. Between the commands stand
// lines of every fault that docs/SCRIPT.md names.
//
// The generator holds no second copy of the rules: it keeps the screen it wrote
// last, the control it believes in force and, where nothing can have been refused,
// the place in the frame. Where its belief is wrong the script is as good a script.

mod damaged;

use std::io::Write;
use std::process::ExitCode;

// ---------------------------------------------------------------------------
// Chance.
// ---------------------------------------------------------------------------

/// A small generator of numbers (splitmix64).
struct Chance(u64);

impl Chance {
    fn next(&mut self) -> u64 {
        self.0 = self.0.wrapping_add(0x9E37_79B9_7F4A_7C15);
        let mut z = self.0;
        z = (z ^ (z >> 30)).wrapping_mul(0xBF58_476D_1CE4_E5B9);
        z = (z ^ (z >> 27)).wrapping_mul(0x94D0_49BB_1331_11EB);
        z ^ (z >> 31)
    }

    /// 0 to n - 1; 0 where n is 0.
    fn below(&mut self, n: u64) -> u64 {
        if n == 0 {
            0
        } else {
            self.next() % n
        }
    }

    fn small(&mut self, n: u32) -> u32 {
        self.below(u64::from(n)) as u32
    }

    /// True so many times in a hundred.
    fn in_a_hundred(&mut self, times: u64) -> bool {
        self.below(100) < times
    }

    fn one_of<T: Copy>(&mut self, choices: &[T]) -> T {
        choices[self.below(choices.len() as u64) as usize]
    }
}

// ---------------------------------------------------------------------------
// Screens.
// ---------------------------------------------------------------------------

// Places in register order, #021 on.
const HALF_SYNC: usize = 0;
const BACK_PORCH: usize = 1;
const DISPLAY: usize = 2;
const SHORT_DISPLAY: usize = 3;
const BROAD_PULSE: usize = 4;
const V_SYNC: usize = 5;
const V_PRE: usize = 6;
const V_POST: usize = 7;
const V_BLANK: usize = 8;
const V_DISPLAY: usize = 9;
const LINE_TIME: usize = 10;
const LINE_START: usize = 11;
const MEM_INIT: usize = 12;
const TRANSFER_DELAY: usize = 13;

type Screen = [u32; 14];

const BENCH_SCREEN: Screen = [1, 3, 2, 1, 4, 1, 1, 1, 2, 4, 14, 0, 1, 1];
const INTERLACED_BENCH_SCREEN: Screen = [1, 3, 6, 1, 4, 1, 1, 1, 1, 3, 14, 0, 2, 1];

const SHIFT_PERIODS: [u32; 4] = [16, 8, 4, 2];
const INCREMENTS: [u64; 4] = [1, 256, 512, 1024];
const INTERLACED_INCREMENTS: [u64; 4] = [1, 2, 512, 1024];
const OFFSETS: [u64; 4] = [1, 1, 256, 512];

const RUN: u32 = 1;
const INTERLACED: u32 = 1 << 1;
const PLAIN: u32 = 1 << 4;
const FORCED_BLANK: u32 = 1 << 10;
const INCREMENT_PLACE: u32 = 12;
const TRANSFERS_OFF: u32 = 1 << 14;
const DEPTH_PLACE: u32 = 20;
const CURSOR_OFF: u32 = 1 << 23;
const HELD: [u32; 6] = [2, 5, 6, 7, 8, 9];
const REFUSED: [u32; 8] = [3, 11, 15, 16, 17, 18, 19, 22];

fn row_length(s: &Screen) -> u64 {
    u64::from(s[MEM_INIT] + s[TRANSFER_DELAY])
}

fn is_laced(control: u32) -> bool {
    control & INTERLACED != 0
}

fn increment_of(control: u32) -> u64 {
    let code = ((control >> INCREMENT_PLACE) & 3) as usize;
    if is_laced(control) {
        INTERLACED_INCREMENTS[code]
    } else {
        INCREMENTS[code]
    }
}

fn offset_of(control: u32) -> u64 {
    OFFSETS[((control >> INCREMENT_PLACE) & 3) as usize]
}

/// What an address is divided by to give its row.
fn row_unit(control: u32) -> u64 {
    if is_laced(control) {
        offset_of(control)
    } else {
        increment_of(control)
    }
}

/// The lines of a field; interlaced, one of them is a half.
fn lines(s: &Screen) -> u64 {
    u64::from(s[V_DISPLAY]).div_ceil(2)
}

fn flyback_half_lines(s: &Screen) -> u32 {
    s[V_PRE] + s[V_SYNC] + s[V_POST] + s[V_BLANK]
}

/// One field's ticks in the frame: its first, its first of VDisplay, the first past
/// it, and its visible ones.
struct Field {
    begin: u64,
    display: u64,
    end: u64,
    visible: Vec<u64>,
}

impl Field {
    /// The visible tick v, or the first of VDisplay where there is none.
    fn seen(&self, v: u64) -> u64 {
        self.visible.get(v as usize).copied().unwrap_or(self.display)
    }

    fn shown(&self) -> u64 {
        self.visible.len() as u64
    }

    /// The visible ticks v after which no visible tick follows at once.
    fn line_ends(&self) -> Vec<u64> {
        let last = |v: &usize| self.visible.get(v + 1) != Some(&(self.visible[*v] + 1));
        (0..self.visible.len()).filter(last).map(|v| v as u64).collect()
    }
}

/// The fields of a frame: one, or two when interlaced.
fn fields(s: &Screen, laced: bool) -> Vec<Field> {
    let half = u64::from(s[LINE_TIME] / 2);
    let before = u64::from(2 * s[HALF_SYNC] + s[BACK_PORCH]);
    let columns = before..before + u64::from(s[DISPLAY]);
    let flyback = u64::from(flyback_half_lines(s));
    let all = flyback + u64::from(s[V_DISPLAY]);
    let mut found = Vec::new();
    for number in 0..1 + u64::from(laced) {
        let first = number * all + flyback;
        let mut visible = Vec::new();
        for half_line in first..first + u64::from(s[V_DISPLAY]) {
            // Interlaced, halves are told by the frame's count of half lines.
            let count = if laced { half_line } else { half_line - first };
            let left = count % 2 * half;
            let shown = columns.start.max(left)..columns.end.min(left + half);
            visible.extend(shown.map(|unit| half_line * half + unit - left));
        }
        found.push(Field {
            begin: number * all * half,
            display: first * half,
            end: (number + 1) * all * half,
            visible,
        });
    }
    found
}

fn visible_ticks(s: &Screen, laced: bool) -> u64 {
    fields(s, laced).iter().map(Field::shown).sum()
}

fn picture_length(s: &Screen, laced: bool) -> u64 {
    visible_ticks(s, laced) * 12
}

fn frame_ticks(s: &Screen, laced: bool) -> u64 {
    let half_lines = u64::from(flyback_half_lines(s) + s[V_DISPLAY]);
    half_lines * u64::from(s[LINE_TIME] / 2) * (1 + u64::from(laced))
}

/// How many rows a field transfers, at most.
fn rows(s: &Screen, laced: bool) -> u64 {
    let most = fields(s, laced).iter().map(Field::shown).max();
    most.unwrap_or(0).div_ceil(row_length(s).max(1))
}

/// How many bytes of picture memory one frame reads, up to its farthest.
fn memory_needed(s: &Screen, control: u32, top: u64) -> u64 {
    let row = row_length(s);
    let bits = 1u64 << ((control >> DEPTH_PLACE) & 3);
    let mut farthest = 0;
    let mut first = top;
    for field in fields(s, is_laced(control)) {
        let all = field.shown();
        let mut k = 0;
        while k * row < all {
            let address = (first + k * increment_of(control)) & 0xFF_FFFF;
            let ticks = row.min(all - k * row);
            let pixels = address / row_unit(control) * row * 4 + ticks * 4;
            farthest = farthest.max((pixels * bits + 7) / 8);
            k += 1;
        }
        first = top + offset_of(control);
    }
    farthest
}

fn all_differ(s: &Screen) -> bool {
    for a in 0..14 {
        for b in 0..a {
            if a != LINE_START && b != LINE_START && s[a] == s[b] {
                return false;
            }
        }
    }
    true
}

/// Small screens for the most part; tall ones for a cursor's whole height, wide
/// ones for cursor positions near 2,047, towers of up to 2,047 lines, and long ones
/// for lines of up to 4,094.
#[derive(Clone, Copy, PartialEq)]
enum Shape {
    Small,
    Tall,
    Wide,
    Tower,
    Long,
}

/// One accepted screen, within the limits of refusals 10 to 18.
fn draw_screen(c: &mut Chance, period: u32, shape: Shape, laced: bool) -> Screen {
    let mut s: Screen = [0; 14];
    let long = shape == Shape::Long;
    let tower = shape == Shape::Tower;
    // A tower's lines are as short as may be, for there are many.
    s[HALF_SYNC] = 1 + c.small(if long { 400 } else if tower { 1 } else { 6 });
    s[TRANSFER_DELAY] = 1 + c.small(if long { 200 } else if tower { 2 } else { 7 });
    let more = if tower || c.in_a_hundred(30) { 0 } else { c.small(if long { 300 } else { 8 }) };
    s[BACK_PORCH] = s[TRANSFER_DELAY] + 2 + more;
    let more = if tower || c.in_a_hundred(30) { 0 } else { c.small(if long { 200 } else { 6 }) };
    s[SHORT_DISPLAY] = s[TRANSFER_DELAY] + more;
    let widest = match shape {
        Shape::Tall => 20,
        Shape::Tower => 2,
        Shape::Long => 1200,
        _ => 44,
    };
    s[DISPLAY] = period * (1 + c.small((widest / period).max(1)));
    if shape == Shape::Wide {
        s[DISPLAY] = 16 * (31 + c.small(7));
    } else if !tower && c.in_a_hundred(40) {
        // A multiple of every shift period, so that the depth may change later.
        s[DISPLAY] = 16 * (1 + c.small(3));
    }

    let before = 2 * s[HALF_SYNC] + s[BACK_PORCH];
    let mut least = (2 * (before + s[SHORT_DISPLAY]) + 2).max(before + s[DISPLAY] + 1);
    least += least % 2;
    s[LINE_TIME] = match c.small(5) {
        0 => least,
        1 => least + 2 * c.small(6),
        // Display ends about half a line.
        3 => least.max(2 * (before + s[DISPLAY]) - 2 + 2 * c.small(3)),
        // Display ends at half a line or before it.
        2 => least.max(2 * (before + s[DISPLAY])) + 2 * c.small(4),
        _ => least + 2 * c.small(20),
    };
    if tower {
        s[LINE_TIME] = least;
    } else if long {
        s[LINE_TIME] = if c.in_a_hundred(20) { 4094 } else { s[LINE_TIME].clamp(least, 4094) };
    }
    let half = s[LINE_TIME] / 2;
    s[BROAD_PULSE] = if c.in_a_hundred(20) { half - 1 } else { 1 + c.small(half - 1) };

    loop {
        s[V_PRE] = 1 + c.small(9);
        s[V_SYNC] = 1 + c.small(9);
        s[V_POST] = 1 + c.small(9);
        if s[V_PRE] != s[V_SYNC] && s[V_SYNC] != s[V_POST] && s[V_PRE] != s[V_POST] {
            break;
        }
    }
    s[V_BLANK] = 2 * (1 + c.small(5));
    s[V_DISPLAY] = 2 * match shape {
        Shape::Small => 1 + c.small(8),
        Shape::Tall => 60 + c.small(16),
        Shape::Wide | Shape::Long => 1 + c.small(2),
        Shape::Tower => 1901 + c.small(147),
    };
    if long {
        s[V_PRE] = 1 + c.small(3);
        s[V_SYNC] = 1 + c.small(3);
        s[V_POST] = 1 + c.small(3);
        s[V_BLANK] = 2;
    }
    if laced {
        // VDisplay odd, one more than an even number or one less; often 1 or 3.
        s[V_DISPLAY] = match c.small(8) {
            0 | 1 if shape == Shape::Small => 1,
            2 if shape == Shape::Small => 3,
            3 | 4 => s[V_DISPLAY] - 1,
            _ => s[V_DISPLAY] + 1,
        };
        s[V_BLANK] -= c.small(2);
        if c.in_a_hundred(50) {
            // A short flyback, for a frame has two.
            let order = c.one_of(&[[1, 2, 3], [3, 1, 2], [2, 1, 4], [4, 3, 1], [1, 4, 2], [3, 4, 2]]);
            [s[V_PRE], s[V_SYNC], s[V_POST]] = order;
            s[V_BLANK] = 1 + c.small(4);
        }
        if flyback_half_lines(&s) % 2 != 0 {
            s[V_BLANK] += 1;
        }
    }

    let display = s[DISPLAY];
    let all = fields(&s, laced)[c.below(1 + u64::from(laced)) as usize].shown() as u32;
    let wanted = match c.small(8) {
        0 | 1 => 2 + c.small(6),
        2 => 2 + c.small(display),
        3 => display,
        4 => display + 1 + c.small(display),
        5 => all + c.small(3),
        6 => 1 << (2 + c.small(10)),
        _ => all + 1 + c.small(4 * all + 1),
    };
    let delay = s[TRANSFER_DELAY];
    s[MEM_INIT] = wanted.saturating_sub(delay).clamp(1, 4095);
    if s[MEM_INIT] == delay {
        s[MEM_INIT] = if delay > 1 && c.in_a_hundred(50) { delay - 1 } else { delay + 1 };
    }
    s[LINE_START] = match c.small(4) {
        0 => 0,
        1 => c.small(5000),
        2 => 0xFF_FFFF,
        _ => c.small(0x100_0000),
    };
    s
}

fn screen(c: &mut Chance, period: u32, shape: Shape, laced: bool) -> Screen {
    let mut s = draw_screen(c, period, shape, laced);
    if c.in_a_hundred(75) {
        for _ in 0..2000 {
            if all_differ(&s) {
                break;
            }
            s = draw_screen(c, period, shape, laced);
        }
    }
    s
}

// ---------------------------------------------------------------------------
// The script being written.
// ---------------------------------------------------------------------------

struct Script {
    c: Chance,
    out: Vec<u8>,
    lines: usize,
    /// How many lines in a hundred end in CR LF.
    cr_lf: u64,
    /// How many lines in a hundred have odd blanks.
    blanks: u64,

    // What is believed.
    screen: Screen,
    control: u32,
    top: u32,
    memory: u32,
    /// The tick of the frame that comes next, where it is known.
    position: Option<u64>,

    // What may still be spent.
    tick_lines: u64,
    ticks: u64,
    picture_bytes: u64,
}

impl Script {
    fn running(&self) -> bool {
        self.control & RUN != 0
    }

    fn depth_code(&self) -> u32 {
        (self.control >> DEPTH_PLACE) & 3
    }

    fn bits(&self) -> u64 {
        1 << self.depth_code()
    }

    fn laced(&self) -> bool {
        is_laced(self.control)
    }

    fn fields(&self) -> Vec<Field> {
        fields(&self.screen, self.laced())
    }

    /// One of the frame's fields.
    fn some_field(&mut self) -> Field {
        let mut all = self.fields();
        let number = self.c.below(all.len() as u64) as usize;
        all.swap_remove(number)
    }

    fn frame_ticks(&self) -> u64 {
        frame_ticks(&self.screen, self.laced())
    }

    fn needed(&self) -> u64 {
        memory_needed(&self.screen, self.control, u64::from(self.top))
    }

    // ----- lines -----------------------------------------------------------

    /// A line as it stands, with its end.
    fn raw(&mut self, line: &[u8]) {
        self.out.extend_from_slice(line);
        if self.c.in_a_hundred(self.cr_lf) {
            self.out.push(b'\r');
        }
        self.out.push(b'\n');
        self.lines += 1;
    }

    /// A line of words.
    fn line(&mut self, words: &[Vec<u8>]) {
        let odd = self.c.in_a_hundred(self.blanks);
        let mut line = Vec::new();
        if odd && self.c.in_a_hundred(30) {
            self.blank(&mut line);
        }
        for (number, word) in words.iter().enumerate() {
            if number > 0 {
                if odd {
                    self.blank(&mut line);
                } else {
                    line.push(b' ');
                }
            }
            line.extend_from_slice(word);
        }
        if odd && self.c.in_a_hundred(30) {
            self.blank(&mut line);
        }
        self.raw(&line);
    }

    fn blank(&mut self, line: &mut Vec<u8>) {
        for _ in 0..=self.c.below(3) {
            line.push(self.c.one_of(b" \t "));
        }
    }

    /// A number in one of its spellings.
    fn spell(&mut self, value: u64) -> Vec<u8> {
        let zeros = match self.c.small(40) {
            0 => self.c.below(30) as usize,
            1..=5 => self.c.below(5) as usize,
            _ => 0,
        };
        let (mark, digits) = match self.c.small(4) {
            0 => ("", format!("{value}")),
            1 => ("#", format!("{value:x}")),
            2 => ("#", format!("{value:X}")),
            _ => {
                let mut digits = format!("{value:X}");
                if self.c.in_a_hundred(50) {
                    digits = digits.replace('A', "a").replace('E', "e");
                }
                if self.c.in_a_hundred(50) {
                    ("", format!("{value}"))
                } else {
                    ("#", digits)
                }
            }
        };
        let mut word = mark.as_bytes().to_vec();
        word.extend(std::iter::repeat(b'0').take(zeros));
        word.extend_from_slice(digits.as_bytes());
        word
    }

    fn command(&mut self, name: &str, numbers: &[u64]) {
        let mut words = vec![name.as_bytes().to_vec()];
        for &value in numbers {
            let word = self.spell(value);
            words.push(word);
        }
        self.line(&words);
    }

    fn write(&mut self, address: u32, value: u32) {
        self.command("write", &[u64::from(address), u64::from(value)]);
    }

    fn read(&mut self, address: u32) {
        self.command("read", &[u64::from(address)]);
    }

    fn value(&mut self) -> u32 {
        match self.c.small(6) {
            0 => 0,
            1 => 0xFF_FFFF,
            _ => self.c.small(0x100_0000),
        }
    }

    // ----- the machine -----------------------------------------------------

    fn write_control(&mut self, control: u32) {
        self.write(0x060, control);
        if control & RUN & self.control != 0 && (control ^ self.control) & INTERLACED != 0 {
            // Refused by 4.
            return;
        }
        if control & RUN != 0 && !self.running() {
            self.position = Some(0);
        }
        if control & RUN == 0 {
            self.position = None;
        }
        self.control = control;
    }

    /// Stops, if running, and leaves a random stopped control behind.
    fn stop(&mut self) {
        if self.running() || self.c.in_a_hundred(20) {
            let mut control = self.control & !RUN;
            if self.c.in_a_hundred(20) {
                control ^= 1 << self.c.one_of(&HELD);
            }
            if self.c.in_a_hundred(10) {
                control ^= INTERLACED;
            }
            self.write_control(control);
        }
    }

    /// A control value that runs at a depth, with all its other bits by chance.
    fn running_control(&mut self, depth: u32, laced: bool) -> u32 {
        let mut control = RUN | (depth << DEPTH_PLACE);
        if laced {
            control |= INTERLACED;
        }
        control |= self.c.small(4) << INCREMENT_PLACE;
        if self.c.in_a_hundred(50) {
            control |= PLAIN;
        }
        if self.c.in_a_hundred(35) {
            control |= CURSOR_OFF;
        }
        if self.c.in_a_hundred(7) {
            control |= FORCED_BLANK;
        }
        if self.c.in_a_hundred(7) {
            control |= TRANSFERS_OFF;
        }
        for bit in HELD {
            if self.c.in_a_hundred(25) {
                control |= 1 << bit;
            }
        }
        control
    }

    fn write_parameters(&mut self) {
        let mut order: Vec<usize> = (0..14).collect();
        for place in (1..14).rev() {
            order.swap(place, self.c.below(place as u64 + 1) as usize);
        }
        for place in order {
            self.write(0x021 + place as u32, self.screen[place]);
        }
    }

    /// One or two parameters put past their limits, a start refused (or, at a
    /// limit, accepted), and the parameters set right again.
    fn damaged_start(&mut self, control: u32) {
        let s = self.screen;
        let before = 2 * s[HALF_SYNC] + s[BACK_PORCH];
        let half = s[LINE_TIME] / 2;
        let period = SHIFT_PERIODS[((control >> DEPTH_PLACE) & 3) as usize];
        let mut touched = Vec::new();
        if self.c.in_a_hundred(15) {
            // TransferDelay at BackPorch - 1 or one below, ShortDisplay no hindrance.
            let delay = s[BACK_PORCH] - 1 - self.c.small(2);
            if delay > s[SHORT_DISPLAY] && before + delay < half {
                self.write(0x021 + SHORT_DISPLAY as u32, delay);
                touched.push(SHORT_DISPLAY);
            }
            self.write(0x021 + TRANSFER_DELAY as u32, delay);
            touched.push(TRANSFER_DELAY);
        }
        for _ in 0..self.c.below(3) {
            let (place, value) = match self.c.small(15) {
                0 => (self.c.small(14) as usize, 0),
                1 => (self.c.small(14) as usize, 4096 + self.c.small(3)),
                2 => (self.c.small(14) as usize, 4095),
                3 => (LINE_TIME, s[LINE_TIME] + 1),
                4 => (LINE_TIME, s[LINE_TIME] - 2),
                5 => (DISPLAY, s[LINE_TIME] - before),
                6 => (DISPLAY, s[LINE_TIME] - before - 1),
                7 => (SHORT_DISPLAY, half - before),
                8 => (SHORT_DISPLAY, half - before - 1),
                9 => (BROAD_PULSE, half - 1 + self.c.small(2)),
                10 if self.c.in_a_hundred(50) => (DISPLAY, s[DISPLAY] + period / 2),
                10 => (DISPLAY, s[DISPLAY] + 1 + self.c.small(period - 1)),
                11 => (self.c.one_of(&[V_BLANK, V_BLANK, V_PRE, V_SYNC]), s[V_BLANK] + 1),
                12 => (V_DISPLAY, s[V_DISPLAY] - 1),
                13 if self.c.in_a_hundred(50) => {
                    // BackPorch no hindrance: ShortDisplay below TransferDelay, or at it.
                    (SHORT_DISPLAY, s[TRANSFER_DELAY] - self.c.small(2))
                }
                _ => {
                    let near = self.c.one_of(&[
                        s[BACK_PORCH] - 2,
                        s[BACK_PORCH] - 1,
                        s[SHORT_DISPLAY],
                        s[SHORT_DISPLAY] + 1,
                    ]);
                    (TRANSFER_DELAY, near)
                }
            };
            self.write(0x021 + place as u32, value);
            touched.push(place);
        }
        self.start_and_restore(control, &touched);
    }

    /// A start with the parameters as they stand, perhaps a tick, a stop, and the touched
    /// parameters set right again.
    fn start_and_restore(&mut self, control: u32, touched: &[usize]) {
        self.write(0x060, control);
        if self.c.in_a_hundred(30) {
            self.command("tick", &[]);
        }
        self.write(0x060, control & !RUN);
        for &place in touched {
            self.write(0x021 + place as u32, self.screen[place]);
        }
    }

    /// Counts of half lines odd and even in both formats, alone and beside the refusals
    /// before them: 16, 17 and 18.
    fn odd_and_even(&mut self, control: u32) {
        let s = self.screen;
        for _ in 0..5 {
            let mut touched = Vec::new();
            for place in [V_PRE, V_SYNC, V_POST, V_BLANK, V_DISPLAY] {
                if self.c.in_a_hundred(30) {
                    self.write(0x021 + place as u32, s[place] + 1);
                    touched.push(place);
                }
            }
            if self.c.in_a_hundred(25) {
                self.write(0x021 + TRANSFER_DELAY as u32, s[BACK_PORCH] - 1);
                touched.push(TRANSFER_DELAY);
            }
            if self.c.in_a_hundred(8) {
                self.write(0x021 + DISPLAY as u32, s[DISPLAY] + 1);
                touched.push(DISPLAY);
            }
            let control = if self.c.in_a_hundred(40) { control ^ INTERLACED } else { control };
            self.start_and_restore(control, &touched);
        }
        self.control = control & !RUN;
    }

    /// Single parameters at the limits of refusal 10 and one past them, a start each.
    fn limits_of_ten(&mut self, control: u32) {
        let s = self.screen;
        for _ in 0..8 {
            let place = self.c.small(14);
            let value = self.c.one_of(&[0, 4094, 4095, 4095, 4096, 4096, 4097, 0x10_0001]);
            self.write(0x021 + place, value);
            self.write(0x060, control);
            if self.c.in_a_hundred(30) {
                let ticks = self.c.below(4);
                self.tick(ticks);
            }
            self.write(0x060, control & !RUN);
            self.write(0x021 + place, s[place as usize]);
        }
    }

    /// A top of screen for the control, within a memory that can be lent.
    fn choose_top(&mut self, control: u32) -> (u32, u64) {
        // Interlaced, an increment of 2 goes with rows one address apart.
        let increment = increment_of(control);
        let s = self.screen;
        let rows = rows(&s, is_laced(control));
        let choices = [
            // Rolls over within the frame, where the memory allows it.
            0x100_0000 - self.c.below(rows * increment + 1).clamp(1, 0xFF_FFFF),
            // The second field's first address rolls over, or the next row.
            0x100_0000 - 1 - self.c.below(row_unit(control)),
            self.c.below(increment * 40),
            self.c.below(increment * 4),
            7,
            0,
        ];
        let first = self.c.below(4) as usize;
        for &top in &choices[first..] {
            let needed = memory_needed(&s, control, top);
            if needed <= 1_048_576 {
                return (top as u32, needed);
            }
        }
        (0, memory_needed(&s, control, 0).min(1_048_576))
    }

    fn lend_memory(&mut self, needed: u64) {
        let length = match self.c.small(10) {
            0 => needed.saturating_sub(1),
            1 => self.c.below(needed + 1),
            2 | 3 => (needed + self.c.below(4000)).min(1_048_576),
            _ => needed,
        };
        self.command("memory", &[length]);
        self.memory = length as u32;
        let start = self.c.below(256);
        let step = match self.c.small(5) {
            0 => 0,
            1 => self.c.next() & 0xFFFF_FFFF,
            _ => 1 + 2 * self.c.below(128),
        };
        self.command("fill", &[0, length, start, step]);
        for _ in 0..self.c.below(3) {
            self.poke();
        }
    }

    fn poke(&mut self) {
        let count = 1 + match self.c.small(5) {
            0 => self.c.below(64),
            _ => self.c.below(12),
        };
        if u64::from(self.memory) < count {
            return;
        }
        let room = u64::from(self.memory) - count;
        let at = match self.c.small(4) {
            0 => room,
            1 => room.saturating_sub(self.c.below(40)),
            2 => 0,
            _ => self.c.below(room + 1),
        };
        let mut numbers = vec![at];
        for _ in 0..count {
            numbers.push(self.c.below(256));
        }
        self.command("poke", &numbers);
    }

    fn colours(&mut self, depth: u32) {
        let entries = match depth {
            0 => 2,
            1 => 4,
            _ => 16,
        };
        for entry in 0..entries {
            let colour = self.value();
            self.write(0x100 + entry, colour);
        }
        if depth == 3 {
            if self.c.in_a_hundred(8) {
                for entry in entries..256 {
                    let colour = self.value();
                    self.write(0x100 + entry, colour);
                }
            } else {
                for _ in 0..self.c.below(10) {
                    let entry = self.c.small(256);
                    let colour = self.value();
                    self.write(0x100 + entry, colour);
                }
            }
        }
        let mask = match self.c.small(6) {
            0 => self.c.small(0x100_0000),
            1 => 0x0F_0F0F,
            2 => 0xFF_00FF,
            3 => 0x07_0F03,
            _ => 0xFF_FFFF,
        };
        self.write(0x040, mask);
    }

    /// A cursor position: at the edges, on the screen, or far off it.
    fn cursor_position(&mut self) -> (i64, i64) {
        let width = i64::from(4 * self.screen[DISPLAY]);
        let height = lines(&self.screen) as i64;
        let one = |c: &mut Chance, size: i64| -> i64 {
            if size > 1900 && c.in_a_hundred(60) {
                return c.one_of(&[2047, 2046, 1984, 1985, 2000, 1900, -2048, -2047, -1900]);
            }
            match c.small(12) {
                0 => -64,
                1 => -63,
                2 => -c.one_of(&[65, 62, 1, 8, 9, 7]),
                3 => 0,
                4 => size - 64,
                5 => size - 1,
                6 => size,
                7 => c.one_of(&[2047, -2048, -2047, 2046, size + 1]),
                8 => c.below(4096) as i64 - 2048,
                _ => c.below((size + 66) as u64) as i64 - 65,
            }
        };
        let x = one(&mut self.c, width);
        let y = one(&mut self.c, height);
        (x.clamp(-2048, 2047), y.clamp(-2048, 2047))
    }

    fn write_cursor_position(&mut self) -> (i64, i64) {
        let (x, y) = self.cursor_position();
        let word = ((x as u32 & 0xFFF) << 12) | (y as u32 & 0xFFF);
        self.write(0x0C7, word);
        (x, y)
    }

    fn cursor_word(&mut self) -> u32 {
        match self.c.small(6) {
            0 => 0xFFFF,
            1 => 0xC000 >> (2 * self.c.small(8)),
            _ => self.c.small(0x1_0000),
        }
    }

    fn cursor(&mut self) {
        for number in 0..3 {
            let colour = self.value();
            self.write(0x0A1 + number, colour);
        }
        let (x, y) = self.write_cursor_position();
        // Words that lie on the screen, where the cursor does, or would if its
        // position were read without a sign.
        let width = i64::from(4 * self.screen[DISPLAY]);
        let x = if x < -1792 { x + 4096 } else { x };
        let height = lines(&self.screen) as i64;
        let mut words = Vec::new();
        for row in 0..64 {
            for word in 0..8 {
                let left = x + 8 * word;
                let on_it = left + 7 >= 0 && left < width && y + row >= 0 && y + row < height;
                if on_it {
                    words.push((8 * row + word) as u32);
                }
            }
        }
        for _ in 0..self.c.below(24) {
            let number = if words.is_empty() || self.c.in_a_hundred(10) {
                self.c.small(512)
            } else {
                self.c.one_of(&words)
            };
            let value = self.cursor_word();
            self.write(0x200 + number, value);
        }
    }

    /// The cursor far out on a wide screen or a tower, a frame each: the signs of its
    /// position, and lines and columns past 1,023.
    fn far_cursor(&mut self, tower: bool) {
        let control = self.control & !(CURSOR_OFF | FORCED_BLANK) | TRANSFERS_OFF | RUN;
        self.stop();
        for number in 0..3 {
            let colour = 1 + self.c.small(0xFF_FFFF);
            self.write(0x0A1 + number, colour);
        }
        for word in [0, 1, 2, 3, 4, 5, 6, 7, 8, 16, 24] {
            self.write(0x200 + word, 0xFFFF);
        }
        self.write_control(control);
        for _ in 0..2 {
            let far = self.c.one_of(&[2047, 2046, 2040, 1984, -2048, -2047, -2040, 1023, 1024]);
            let near = self.c.below(6) as i32 - 3;
            let (x, y) = if tower { (near, far) } else { (far, near) };
            self.write(0x0C7, ((x as u32 & 0xFFF) << 12) | (y as u32 & 0xFFF));
            if self.laced() {
                // The first field's sums too.
                let end = self.fields()[0].end;
                self.run(end);
                self.nine();
                self.run(end);
            } else {
                self.run(self.frame_ticks());
            }
            self.nine();
        }
    }

    // ----- running ---------------------------------------------------------

    /// Whether no tick can be refused, as far as is known.
    fn safe(&self) -> bool {
        if self.control & (FORCED_BLANK | TRANSFERS_OFF) != 0 {
            return true;
        }
        self.needed() <= u64::from(self.memory)
    }

    fn went(&mut self, ticks: u64) {
        let frame = self.frame_ticks();
        self.position = match self.position {
            Some(position) if self.running() && self.safe() && frame > 0 => {
                Some((position + ticks) % frame)
            }
            _ => None,
        };
    }

    fn run(&mut self, ticks: u64) {
        let ticks = ticks.min(self.ticks);
        self.ticks -= ticks;
        self.command("run", &[ticks]);
        self.went(ticks);
    }

    fn tick(&mut self, ticks: u64) {
        let ticks = ticks.min(self.tick_lines);
        self.tick_lines -= ticks;
        if ticks == 1 && self.c.in_a_hundred(50) {
            self.command("tick", &[]);
        } else {
            self.command("tick", &[ticks]);
        }
        self.went(ticks);
    }

    /// Runs to just before a tick of the frame at which something happens.
    fn run_to_an_event(&mut self) {
        let Some(position) = self.position else {
            let ticks = self.c.below(200);
            self.run(ticks);
            return;
        };
        let s = self.screen;
        let half = u64::from(s[LINE_TIME] / 2);
        let row = row_length(&s);
        let field = self.some_field();
        let last = field.shown().saturating_sub(1);
        let event = match self.c.small(11) {
            0 => field.begin,
            1 => field.begin + u64::from(s[V_PRE]) * half,
            2 => field.begin + u64::from(s[V_PRE] + s[V_SYNC]) * half,
            3 => field.begin + u64::from(s[V_PRE] + s[V_SYNC] + s[V_POST]) * half,
            4 => field.display,
            5 => field.seen(0),
            6 => field.seen(0).saturating_sub(u64::from(s[TRANSFER_DELAY])),
            7 => field.seen(last),
            8 => {
                let ends = field.line_ends();
                let v = if ends.is_empty() { 0 } else { self.c.one_of(&ends) + self.c.below(2) };
                field.seen(v)
            }
            // A half line of VDisplay.
            9 => field.display + self.c.below(u64::from(s[V_DISPLAY])) * half,
            _ => {
                let k = self.c.below(field.shown() / row.max(1) + 1);
                field.seen((k * row).min(last))
            }
        };
        let frame = self.frame_ticks();
        let target = (event + frame + self.c.below(3) - 1) % frame;
        let ticks = (target + frame - position) % frame;
        self.run(ticks);
    }

    fn to_the_frame_start(&mut self) {
        if let Some(position) = self.position {
            let frame = self.frame_ticks();
            let ticks = (frame - position) % frame;
            if ticks > 0 {
                self.run(ticks);
            }
        }
    }

    fn picture(&mut self, good: bool) {
        let length = picture_length(&self.screen, self.laced());
        if good && length <= self.picture_bytes {
            self.picture_bytes -= length;
            self.command("picture", &[length]);
            // A frame on, if it is given; the place stays the same.
            if !self.safe() {
                self.position = self.position.filter(|&position| position == 0);
            }
        } else {
            let wrong = match self.c.small(9) {
                // What another format of the same screen would take.
                8 => picture_length(&self.screen, !self.laced()),
                0 | 1 => length + 1,
                2 | 3 => length - 1,
                4 => 0,
                5 => length / 3,
                6 => 3_145_728,
                _ => self.c.below(length * 2),
            };
            if wrong != length {
                self.command("picture", &[wrong.min(3_145_728)]);
            }
        }
    }

    fn nine(&mut self) {
        if self.c.in_a_hundred(70) {
            self.command("nine", &[]);
        } else {
            for number in 0..3 {
                self.read(0x0C0 + number);
            }
        }
    }

    fn restart(&mut self) {
        let control = self.control | RUN;
        self.stop();
        if self.c.in_a_hundred(50) {
            self.nine();
        }
        if self.c.in_a_hundred(20) {
            let ticks = self.c.below(3);
            self.tick(ticks);
        }
        if self.c.in_a_hundred(20) {
            self.picture(true);
        }
        self.write_control(control);
    }

    /// One change of the control while running.
    fn change_control(&mut self) {
        let mut control = self.control;
        match self.c.small(13) {
            0 | 1 => control ^= FORCED_BLANK,
            2 | 3 => control ^= TRANSFERS_OFF,
            4 | 5 => {
                control &= !(3 << INCREMENT_PLACE);
                control |= self.c.small(4) << INCREMENT_PLACE;
            }
            6..=8 => {
                let depth = self.c.small(4);
                control &= !(3 << DEPTH_PLACE);
                control |= depth << DEPTH_PLACE;
            }
            9 => control ^= PLAIN,
            10 => control ^= CURSOR_OFF,
            11 => {
                // Several at once.
                let depth = self.c.small(4);
                control = self.running_control(depth, self.laced());
            }
            _ => control ^= 1 << self.c.one_of(&HELD),
        }
        let period = SHIFT_PERIODS[((control >> DEPTH_PLACE) & 3) as usize];
        if self.screen[DISPLAY] % period != 0 {
            // Refused by 15.
            self.write(0x060, control);
            return;
        }
        self.write_control(control);
    }

    /// The other format asked for: refused while it runs, taken by a write that stops,
    /// and accepted once the counts of half lines fit it.
    fn change_format(&mut self) {
        let control = self.control | RUN;
        let other = control ^ INTERLACED;
        match self.c.small(5) {
            0 | 1 => {
                // 4, also with a depth that would be 15, or another bit of 4.
                let more = self.c.one_of(&[0, 0, 1 << DEPTH_PLACE, 1 << 11, FORCED_BLANK, 4]);
                if self.running() {
                    self.write(0x060, other ^ more);
                    self.tick(1);
                    self.read(0x060);
                }
            }
            2 => {
                self.write_control(other & !RUN);
                self.tick(1);
                self.nine();
                // 16 or 18; then the format it had.
                self.write(0x060, other);
                self.write_control(control);
            }
            _ => {
                let stopped = if self.c.in_a_hundred(50) { other } else { control } & !RUN;
                self.write_control(stopped);
                if self.c.in_a_hundred(50) {
                    self.nine();
                }
                self.refit(is_laced(other));
                for place in [V_BLANK, V_DISPLAY] {
                    self.write(0x021 + place as u32, self.screen[place]);
                }
                let (top, needed) = self.choose_top(other);
                self.top = top;
                self.write(0x080, top);
                self.lend_memory(needed);
                self.write_control(other);
                if self.c.in_a_hundred(50) {
                    self.picture(true);
                    self.nine();
                }
                let ticks = 1 + self.c.below(12);
                self.tick(ticks);
            }
        }
    }

    /// Counts of half lines that fit a format, near the ones there are.
    fn refit(&mut self, laced: bool) {
        let up = self.c.in_a_hundred(50);
        let s = &mut self.screen;
        let one_off = |count: u32| if count > 2 && (!up || count > 4000) { count - 1 } else { count + 1 };
        if (s[V_DISPLAY] % 2 == 1) != laced {
            s[V_DISPLAY] = one_off(s[V_DISPLAY]);
        }
        let odd = if laced { flyback_half_lines(s) % 2 } else { s[V_BLANK] % 2 };
        if odd == 1 {
            s[V_BLANK] = one_off(s[V_BLANK]);
        }
    }

    /// Something changed between the fields, or about the first VDisplay tick of the
    /// second: top, increment, cursor position, forced blank, transfers, depth; the sums
    /// of the first field read before.
    fn between_fields(&mut self) {
        let all = self.fields();
        let [first, second] = &all[..] else {
            return;
        };
        let from = first.seen(0) + 1;
        let shows = second.seen(0);
        let target = match self.c.small(6) {
            0 => second.begin,
            1 => second.display - 1 + self.c.below(3),
            2 => first.end - 1,
            // Past the tick that takes top and offset up, where that shows nothing yet.
            3 | 4 if shows > second.display => {
                second.display + 1 + self.c.below(shows - second.display)
            }
            _ => from + self.c.below(second.display + 2 - from),
        };
        if !self.run_to(target) {
            return;
        }
        if self.c.in_a_hundred(60) {
            self.nine();
        }
        let before = self.control;
        for _ in 0..1 + self.c.below(2) {
            match self.c.small(8) {
                0..=2 => {
                    let top = if self.c.in_a_hundred(50) {
                        self.choose_top(self.control).0
                    } else {
                        self.top ^ (1 << self.c.small(11))
                    };
                    self.write(0x080, top);
                    self.top = top;
                }
                3 | 4 => {
                    let mut control = self.control & !(3 << INCREMENT_PLACE);
                    control |= self.c.small(4) << INCREMENT_PLACE;
                    // Where nothing is read the addresses are seen past every row.
                    if self.c.in_a_hundred(40) {
                        control |= FORCED_BLANK;
                    }
                    self.write_control(control);
                }
                5 => {
                    self.write_cursor_position();
                }
                6 => self.write_control(self.control ^ FORCED_BLANK),
                _ => self.change_control(),
            }
        }
        // Shown from before the second field's prelude on.
        let delay = u64::from(self.screen[TRANSFER_DELAY]);
        let prelude = shows.saturating_sub(delay + 1);
        if target < prelude {
            self.run_to(prelude);
        }
        let ticks = delay + 3 + self.c.below(row_length(&self.screen).min(50));
        self.tick(ticks);
        if self.c.in_a_hundred(60) {
            self.to_the_frame_start();
            self.nine();
        }
        if self.c.in_a_hundred(40) {
            self.write_control(before);
        }
    }

    /// A whole picture asked at the second field's start, or about it.
    fn picture_in_mid_frame(&mut self) {
        let Some(second) = self.fields().pop() else {
            return;
        };
        let target = second.begin + self.c.one_of(&[0, 0, 0, 1]);
        if self.run_to(target) {
            self.picture(true);
            self.nine();
            self.tick(1);
        }
    }

    /// One change of another register while running.
    fn change_register(&mut self) {
        match self.c.small(8) {
            0 => {
                let mask = self.value();
                self.write(0x040, mask);
            }
            1 | 2 => {
                let entries = 1 << self.bits();
                let entry = self.c.small(entries.min(16));
                let colour = self.value();
                self.write(0x100 + entry, colour);
            }
            3 => {
                self.write_cursor_position();
            }
            4 => {
                let number = self.c.small(3);
                let colour = self.value();
                self.write(0x0A1 + number, colour);
            }
            5 => {
                let number = self.c.small(512);
                let value = self.cursor_word();
                self.write(0x200 + number, value);
            }
            _ => {
                let (top, _) = self.choose_top(self.control);
                let top = if self.c.in_a_hundred(15) { self.value() } else { top };
                self.write(0x080, top);
                self.top = top;
            }
        }
    }

    fn any_address(&mut self) -> u32 {
        match self.c.small(16) {
            0 => self.c.one_of(&[0x000, 0x020, 0x02F, 0x03F, 0x041, 0x05F, 0x061, 0x070]),
            1 => self.c.one_of(&[0x07F, 0x081, 0x0A0, 0x0A4, 0x0BF, 0x0C3, 0x0C6, 0x0C8]),
            2 => self.c.one_of(&[0x0FF, 0x400, 0x421, 0x1060, 0x1_0060, 0xFFFF_FFFF]),
            3 => self.c.small(0x500),
            4 => (self.c.next() & 0xFFFF_FFFF) as u32,
            5 => self.c.one_of(&[0x040, 0x060, 0x080, 0x0C7]),
            6 => self.c.one_of(&[0x100, 0x1FF, 0x200, 0x3FF]),
            7 | 8 => 0x0C0 + self.c.small(3),
            9 => 0x0A1 + self.c.small(3),
            10 => 0x100 + self.c.small(16),
            11 => 0x200 + self.c.small(0x200),
            _ => 0x021 + self.c.small(14),
        }
    }

    /// A read of any address.
    fn any_read(&mut self) {
        let address = self.any_address();
        self.read(address);
    }

    /// A write that is refused, or that stands at a limit and changes nothing
    /// that is believed.
    fn refused_write(&mut self) {
        match self.c.small(9) {
            8 => {
                // 4 while running, for the other format.
                if self.running() {
                    self.write(0x060, self.control ^ INTERLACED);
                }
            }
            0 => {
                // 2, some with a value that would be 1.
                let address = self.c.one_of(&[
                    0x000, 0x001, 0x020, 0x02F, 0x03F, 0x041, 0x070, 0x0A0, 0x0A4, 0x0C0, 0x0C1,
                    0x0C2, 0x0C3, 0x0C6, 0x0C8, 0x0FF, 0x400, 0xFFFF_FFFF,
                ]);
                let value = self.c.one_of(&[0, 1, 0xFF_FFFF, 0x100_0000, 0xFFFF_FFFF]);
                self.write(address, value);
            }
            1 => {
                // 1.
                let address = self.c.one_of(&[
                    0x021, 0x02E, 0x040, 0x060, 0x080, 0x0A1, 0x0A3, 0x0C7, 0x100, 0x1FF, 0x200,
                    0x3FF,
                ]);
                let value = self.c.one_of(&[0x100_0000, 0x100_0001, 0xFFFF_FFFF]);
                self.write(address, value);
            }
            2 => {
                // The cursor store's own limit.
                let address = 0x200 + self.c.small(0x200);
                let value = self.c.one_of(&[0xFFFF, 0x1_0000, 0xFF_FFFF, 0x1_FFFF]);
                self.write(address, value);
            }
            3 | 4 => {
                // 4, with bit 0 set or clear.
                let mut control = self.control | 1 << self.c.one_of(&REFUSED);
                if self.c.in_a_hundred(30) {
                    control ^= RUN;
                }
                self.write(0x060, control);
            }
            _ => {
                // 3, if running; else the value it has.
                let place = self.c.small(14);
                let mut value = self.screen[place as usize];
                if self.running() && self.c.in_a_hundred(50) {
                    value = self.c.one_of(&[0, 1, 4095, 0xFF_FFFF, 0x100_0000]);
                }
                self.write(0x021 + place, value);
            }
        }
    }

    /// A palette entry or a word of the cursor store, and what stands beside it.
    fn write_and_read(&mut self) {
        let address = 0x100 + self.c.small(0x300);
        let value = if address < 0x200 { self.value() } else { self.cursor_word() };
        self.write(address, value);
        for beside in [address, address - 1, address + 1] {
            self.read(beside);
        }
    }

    /// Checksums about a field's first VDisplay tick and its end: refusal 5.
    fn sums_in_time(&mut self) {
        let field = self.some_field();
        let edge = if self.c.in_a_hundred(50) { field.display } else { field.end };
        if self.run_to(edge - 1) {
            for _ in 0..3 {
                let address = 0x0C0 + self.c.small(3);
                self.read(address);
                self.nine();
                self.tick(1);
            }
        }
    }

    /// The line before, spoilt in one place. Not one that runs or shows ticks, whose
    /// count could become too large to wait for.
    fn spoilt_line(&mut self) {
        let before = &self.out[..self.out.len() - usize::from(!self.out.is_empty())];
        let start = before.iter().rposition(|&byte| byte == b'\n').map_or(0, |at| at + 1);
        let mut line = before[start..].to_vec();
        if line.last() == Some(&b'\r') {
            line.pop();
        }
        let slow: [&[u8]; 3] = [b"tick", b"run", b"picture"];
        if line.is_empty() || slow.iter().any(|name| line.windows(name.len()).any(|w| w == *name)) {
            return;
        }
        let at = self.c.below(line.len() as u64) as usize;
        let byte = match self.c.small(3) {
            0 => self.c.one_of(b" \t#/;0x\r\0"),
            1 => self.c.one_of(b"0123456789ABCDEFabcdef"),
            _ => self.c.below(256) as u8,
        };
        // A line end would make two lines of it: as good, but it is counted as one.
        let byte = if byte == b'\n' { b'\r' } else { byte };
        match self.c.small(7) {
            0 => line[at] = byte,
            1 => line.insert(at, byte),
            2 => {
                line.remove(at);
            }
            3 => line.truncate(at),
            4 => {
                let middle = line.len() / 2;
                line.swap(at, middle);
            }
            5 => line.push(byte),
            _ => line.extend_from_within(at..),
        }
        self.raw(&line);
        self.position = None;
    }

    /// Commands in no order at all.
    fn soup(&mut self) {
        for _ in 0..20 + self.c.below(30) {
            match self.c.small(16) {
                0..=3 => {
                    let address = self.any_address();
                    let value = match self.c.small(5) {
                        0 => self.c.small(16),
                        1 => self.value(),
                        2 => self.cursor_word(),
                        3 => self.screen[self.c.below(14) as usize],
                        _ => (self.c.next() & 0xFFFF_FFFF) as u32,
                    };
                    self.write(address, value);
                }
                4 | 5 => {
                    let depth = self.c.small(4);
                    let laced = self.c.in_a_hundred(50);
                    let mut control = self.running_control(depth, laced);
                    if self.c.in_a_hundred(30) {
                        control &= !RUN;
                    }
                    self.write(0x060, control);
                }
                6 | 7 => self.any_read(),
                8 => {
                    let ticks = self.c.below(20);
                    self.tick(ticks);
                }
                9 | 10 => {
                    let ticks = self.c.below(300);
                    self.run(ticks);
                }
                11 => {
                    let good = self.c.in_a_hundred(70);
                    self.picture(good);
                }
                12 => self.nine(),
                13 => {
                    self.memory = self.c.small(3000);
                    self.command("memory", &[u64::from(self.memory)]);
                }
                14 => {
                    let at = self.c.below(u64::from(self.memory) + 2);
                    let count = self.c.below(u64::from(self.memory) + 2 - at);
                    let start = self.c.next() & 0xFFFF_FFFF;
                    let step = self.c.next() & 0xFFFF_FFFF;
                    self.command("fill", &[at, count, start, step]);
                }
                _ => self.write_parameters(),
            }
        }
        self.write_control(0);
    }

    /// A frame bright and large enough for its sums to roll over past #FFFFFF.
    fn bright_frame(&mut self) {
        let laced = self.c.in_a_hundred(50);
        self.stop();
        self.screen = screen(&mut self.c, 16, Shape::Small, laced);
        self.screen[DISPLAY] = 256;
        self.screen[LINE_TIME] = 350;
        self.screen[V_DISPLAY] = 132 + 2 * self.c.small(4) + u32::from(laced);
        self.write_parameters();
        let colour = 0xFF_FFFF - self.c.one_of(&[0, 0x01_0000, 0x01_0203, 0x00_7F00, 0xFF]);
        self.write(0x100, colour);
        let control = self.running_control(3, laced) & !FORCED_BLANK | TRANSFERS_OFF | CURSOR_OFF;
        self.write_control(control);
        let end = self.fields()[0].end;
        self.run(end);
        self.nine();
        let ticks = self.c.below(end);
        self.run(ticks);
        self.stop();
        self.nine();
    }

    /// All that can be read, while stopped.
    fn read_all(&mut self) {
        self.write_control(self.control & !RUN);
        for address in 0x01F..0x030 {
            self.read(address);
        }
        for address in [0x040, 0x060, 0x080, 0x0A1, 0x0A2, 0x0A3, 0x0C0, 0x0C1, 0x0C2, 0x0C7] {
            self.read(address);
        }
        if self.c.in_a_hundred(15) {
            for address in 0x100..0x400 {
                self.read(address);
            }
        }
    }

    /// One thing that happens while a screen runs.
    fn event(&mut self) {
        let frame = self.frame_ticks();
        match self.c.small(69) {
            58..=62 if self.laced() => self.between_fields(),
            63 | 64 if self.laced() => self.picture_in_mid_frame(),
            65 | 66 => self.change_format(),
            58..=62 => self.top_in_time(),
            67 | 68 => self.sums_in_time(),
            55 => self.covered_end(),
            56 | 57 => self.compare_line(),
            47 => self.write_and_read(),
            48 | 49 => self.sums_in_time(),
            50..=52 => self.spoilt_line(),
            53 | 54 => {
                self.run_to_an_event();
                self.change_control();
                let ticks = 1 + self.c.below(4);
                self.tick(ticks);
                self.change_control();
                self.tick(ticks);
            }
            44 | 45 => self.end_of_row(),
            46 if self.c.in_a_hundred(40) => self.far_row(),
            34 | 35 => self.switch_between_lines(),
            36 | 37 => self.off_for_a_stretch(),
            38 | 39 => self.top_in_time(),
            40 | 41 => self.increment_in_time(),
            42 | 43 => {
                self.fault();
                self.fault();
                self.sheet_line();
            }
            0 | 1 => {
                let ticks = 1 + self.c.below(12);
                self.tick(ticks);
            }
            2..=4 => {
                self.run_to_an_event();
                let ticks = 1 + self.c.below(5);
                self.tick(ticks);
            }
            5 => {
                let ticks = self.c.below(frame + 1);
                self.run(ticks);
            }
            6 => {
                let most = if self.c.in_a_hundred(10) { 40 } else { 4 };
                let frames = 1 + self.c.below(most);
                self.run(frame * frames);
                self.nine();
            }
            7 if frame <= 1200 => self.tick(frame),
            7 | 8 => {
                self.to_the_frame_start();
                self.nine();
            }
            9 | 10 => {
                self.to_the_frame_start();
                self.picture(true);
                self.nine();
            }
            11 => {
                let good = self.c.in_a_hundred(50);
                self.picture(good);
            }
            12 => self.nine(),
            13..=16 => {
                self.run_to_an_event();
                self.change_control();
                let ticks = self.c.below(8);
                self.tick(ticks);
            }
            17..=20 => {
                if self.c.in_a_hundred(60) {
                    self.run_to_an_event();
                }
                self.change_register();
                let ticks = self.c.below(6);
                self.tick(ticks);
            }
            21 => self.any_read(),
            22 | 23 => self.refused_write(),
            24 => self.restart(),
            25 => {
                let needed = self.needed();
                if needed <= 1_048_576 {
                    self.lend_memory(needed);
                }
            }
            26 => self.poke(),
            27 => self.end_of_memory(),
            28 => self.sheet_line(),
            29 => self.compare_line(),
            30 => self.remark(),
            _ => self.fault(),
        }
        // Where the place is no longer known, mostly begin again.
        if self.position.is_none() && self.running() && self.c.in_a_hundred(35) {
            self.restart();
        }
    }

    /// Runs to a tick of the frame, where the place is known.
    fn run_to(&mut self, target: u64) -> bool {
        let Some(position) = self.position else {
            return false;
        };
        let frame = self.frame_ticks();
        let ticks = (target % frame + frame - position) % frame;
        if ticks > 0 {
            self.run(ticks);
        }
        self.position.is_some()
    }

    /// Transfers switched at a line's last visible tick and again between lines.
    fn switch_between_lines(&mut self) {
        let s = self.screen;
        let row = row_length(&s);
        let field = self.some_field();
        let ends = field.line_ends();
        if ends.is_empty() {
            return;
        }
        // A line at whose last visible tick the request is high, if there is one.
        let mut end = self.c.one_of(&ends);
        for &other in &ends[..ends.len() - 1] {
            if other % row >= u64::from(s[MEM_INIT]) && self.c.in_a_hundred(60) {
                end = other;
            }
        }
        if !self.run_to(field.seen(end)) {
            return;
        }
        let on = self.control & !TRANSFERS_OFF;
        let off = self.control | TRANSFERS_OFF;
        let order = if self.c.in_a_hundred(50) { [off, on, off] } else { [on, off, on] };
        self.write_control(order[0]);
        self.tick(1);
        let between = self.c.below(3);
        self.tick(between);
        self.write_control(order[1]);
        self.tick(2);
        if self.c.in_a_hundred(50) {
            self.write_control(order[2]);
            self.tick(2);
        }
        let rest = self.c.below(u64::from(s[LINE_TIME]));
        self.tick(rest);
    }

    /// Transfers off, or blank forced, for a stretch of the frame.
    fn off_for_a_stretch(&mut self) {
        let s = self.screen;
        let before = self.control;
        let field = self.some_field();
        let v = self.c.below(field.shown());
        if !self.run_to(field.seen(v)) {
            return;
        }
        let mut control = before & !(TRANSFERS_OFF | FORCED_BLANK);
        if self.c.in_a_hundred(30) {
            self.write_control(control);
            self.tick(1);
        }
        control |= self.c.one_of(&[TRANSFERS_OFF, TRANSFERS_OFF, FORCED_BLANK]);
        self.write_control(control);
        let stretch = 1 + self.c.below(2 * u64::from(s[LINE_TIME]));
        self.run(stretch);
        self.write_control(control & !(TRANSFERS_OFF | FORCED_BLANK));
        let ticks = 2 + self.c.below(u64::from(s[LINE_TIME]));
        self.tick(ticks);
        self.to_the_frame_start();
        self.nine();
    }

    /// Another top of screen about a field's first VDisplay tick.
    fn top_in_time(&mut self) {
        let s = self.screen;
        let field = self.some_field();
        let first = field.seen(0);
        let begin = field.display;
        let target = match self.c.small(5) {
            0 => begin,
            1 => begin + 1,
            2 => begin - 1,
            3 => first,
            _ => begin + self.c.below(first - begin + 2),
        };
        if !self.run_to(target) {
            return;
        }
        let (top, _) = self.choose_top(self.control);
        self.write(0x080, top);
        let ticks = first + 2 - target + self.c.below(row_length(&s).min(60) + 2);
        self.tick(ticks);
        self.top = top;
    }

    /// Another increment at a transfer, or one tick off it.
    fn increment_in_time(&mut self) {
        let s = self.screen;
        let row = row_length(&s);
        let field = self.some_field();
        let k = self.c.below(field.shown().div_ceil(row));
        let first = field.seen(0);
        let target = if self.laced() && self.c.in_a_hundred(40) {
            // From the tick that takes up the offset to the first transfer.
            field.display + self.c.below(first - field.display + 2)
        } else {
            field.seen(k * row) + self.c.below(3) - 1
        };
        if !self.run_to(target) {
            return;
        }
        let mut control = self.control & !(3 << INCREMENT_PLACE);
        control |= self.c.small(4) << INCREMENT_PLACE;
        // Where nothing is read the addresses are seen past every row.
        if self.c.in_a_hundred(50) {
            control |= FORCED_BLANK;
        }
        self.write_control(control);
        if target + 2 < first {
            self.run_to(first - 1);
        }
        let ticks = 3 + self.c.below(2 * row.min(60));
        self.tick(ticks);
        if self.c.in_a_hundred(50) {
            self.run(ticks);
            self.to_the_frame_start();
        }
        self.nine();
    }

    /// A row far beyond any memory: its first pixel, or its first bit, is the first
    /// at 2^32 or past it.
    fn far_row(&mut self) {
        let bits = self.bits();
        let unit = row_length(&self.screen) * 4 * self.c.one_of(&[bits, bits, 1]);
        let top = (1u64 << 32).div_ceil(unit);
        if top > 0xFF_FFFF {
            return;
        }
        let clear = (3 << INCREMENT_PLACE) | TRANSFERS_OFF | FORCED_BLANK;
        let control = (self.control & !clear) | RUN;
        self.stop();
        self.top = top as u32;
        self.write(0x080, self.top);
        self.command("memory", &[65_536]);
        self.memory = 65_536;
        self.command("fill", &[0, 65_536, 1, 1]);
        self.write_control(control);
        self.run(self.frame_ticks());
        self.tick(2);
        self.position = None;
    }

    /// A memory that ends where a row ends: the tick of the next transfer is
    /// refused, and then let on.
    fn end_of_row(&mut self) {
        let s = self.screen;
        let row = row_length(&s);
        let mut control = self.control & !(TRANSFERS_OFF | FORCED_BLANK) | RUN;
        let needed = self.needed();
        let number = self.c.below(1 + u64::from(self.laced()));
        let field = self.fields().swap_remove(number as usize);
        let rows = field.shown().div_ceil(row);
        if rows < 2 || needed > 1_048_576 {
            return;
        }
        let k = 1 + self.c.below(rows - 1);
        let address = u64::from(self.top) + number * offset_of(control) + k * increment_of(control);
        let pixels = address / row_unit(control) * row * 4;
        let length = (pixels * self.bits() / 8).min(1_048_576);
        let to_it = field.seen(k * row);
        self.command("memory", &[needed]);
        self.memory = needed as u32;
        self.stop();
        self.write_control(control);
        // A first field is let by with all it needs.
        self.run(field.begin);
        self.command("memory", &[length]);
        self.memory = length as u32;
        self.command("fill", &[0, length, 1, 3]);
        self.run(to_it - field.begin);
        self.tick(1);
        if self.c.in_a_hundred(30) {
            self.tick(1);
        }
        // The place is known still, if nothing rolled over: just before the tick
        // that was refused.
        self.position = Some(to_it);
        control = self.control;
        match self.c.small(5) {
            0 => self.write_control(control | TRANSFERS_OFF),
            1 => self.write_control(control | FORCED_BLANK),
            2 => {
                let increment = self.c.small(4) << INCREMENT_PLACE;
                self.write_control(control & !(3 << INCREMENT_PLACE) | increment);
            }
            _ => {
                self.command("memory", &[needed]);
                self.memory = needed as u32;
            }
        }
        let ticks = 2 + self.c.below(row.min(40));
        self.tick(ticks);
        self.to_the_frame_start();
        self.nine();
    }

    /// A frame with exactly enough memory, and then one byte short of it.
    fn end_of_memory(&mut self) {
        let needed = self.needed();
        if needed == 0 || needed > 1_048_576 {
            return;
        }
        self.command("memory", &[needed]);
        self.memory = needed as u32;
        let step = 1 + 2 * self.c.below(128);
        self.command("fill", &[0, needed, 3, step]);
        self.restart();
        if self.c.in_a_hundred(50) {
            self.picture(true);
        } else {
            self.run(self.frame_ticks());
        }
        self.nine();
        self.command("memory", &[needed - 1]);
        self.memory = needed as u32 - 1;
        if self.c.in_a_hundred(40) {
            self.picture(true);
        }
        self.run(self.frame_ticks());
        self.tick(1);
        self.position = None;
        if self.c.in_a_hundred(40) {
            // On past the tick that was refused.
            let control = self.control ^ self.c.one_of(&[FORCED_BLANK, TRANSFERS_OFF]);
            self.write_control(control);
            self.tick(3);
        } else if self.c.in_a_hundred(50) {
            self.command("memory", &[needed]);
            self.memory = needed as u32;
            self.tick(2);
        }
        self.position = None;
    }

    /// A cursor of one colour over the whole screen, as far as it reaches, and a memory
    /// that ends in its first line: a place under the cursor is read too.
    fn covered_end(&mut self) {
        let s = self.screen;
        let (control, bits) = (self.control, self.bits());
        self.stop();
        self.write(0x0C7, 0);
        for word in 0..8 {
            self.write(0x200 + word, 0x5555);
        }
        self.top = 0;
        self.write(0x080, 0);
        let field = fields(&s, is_laced(control)).swap_remove(0);
        let first_line = field.line_ends()[0] + 1;
        let ticks = first_line.min(16).min(row_length(&s));
        let bytes = 4 * ticks * bits / 8;
        let length = self.c.below(bytes + 1);
        self.command("memory", &[length]);
        self.memory = length as u32;
        self.write_control(control & !(CURSOR_OFF | TRANSFERS_OFF | FORCED_BLANK) | RUN);
        if self.c.in_a_hundred(50) {
            self.picture(true);
        }
        self.run(field.seen(ticks - 1) + 1);
        self.tick(1);
        self.position = None;
    }

    // ----- sheets and comparison ------------------------------------------

    fn sheet_values(&mut self) -> Screen {
        let mut values = self.screen;
        for value in &mut values {
            *value &= 0xFFFF;
        }
        if self.c.in_a_hundred(40) {
            for value in &mut values {
                *value = self.c.small(65_536);
            }
        }
        values
    }

    fn sheet_line(&mut self) {
        let values = self.sheet_values();
        if self.c.in_a_hundred(35) {
            let mut numbers = vec![match self.c.small(5) {
                0 => self.c.below(81),
                1 => 69,
                2 => 80,
                3 => 70 + self.c.below(11),
                _ => 70,
            }];
            numbers.extend(values.iter().map(|&value| u64::from(value)));
            if self.c.in_a_hundred(25) {
                let place = 1 + self.c.below(14) as usize;
                numbers[place] = self.c.one_of(&[65_535, 65_536, 65_537, 0xFFFF_FFFF]);
            }
            self.command("store", &numbers);
            return;
        }
        let mut bytes = Vec::new();
        for (place, value) in values.iter().enumerate() {
            bytes.push(0x21 + place as u64);
            bytes.extend_from_slice(&[0, 2]);
            bytes.extend_from_slice(&[u64::from(value >> 8), u64::from(value & 0xFF)]);
        }
        for _ in 0..self.c.below(3) {
            let field = 5 * self.c.below(14) as usize;
            match self.c.small(7) {
                0 => {
                    let length = self.c.below(71) as usize;
                    bytes.truncate(length);
                }
                6 => {
                    // Two faults in one field.
                    for (place, byte) in bytes.iter_mut().enumerate().skip(field).take(3) {
                        *byte ^= 1 << (place % 7);
                    }
                }
                1 if field < bytes.len() => bytes[field] = self.c.below(256),
                2 if field + 1 < bytes.len() => bytes[field + 1] = 1 + self.c.below(255),
                3 if field + 2 < bytes.len() => bytes[field + 2] = self.c.one_of(&[0, 1, 3]),
                4 => {
                    for _ in 0..=self.c.below(9) {
                        let byte = self.c.below(256);
                        bytes.push(byte);
                    }
                }
                _ => {}
            }
        }
        bytes.truncate(80);
        if self.c.in_a_hundred(40) {
            let tag = match self.c.small(8) {
                0 => 0x20,
                1 => 0x2F,
                2 => self.c.next() & 0xFFFF_FFFF,
                _ => 0x21 + self.c.below(14),
            };
            bytes.insert(0, tag);
            self.command("field", &bytes);
        } else {
            self.command("sheet", &bytes);
        }
    }

    fn compare_line(&mut self) {
        let mut left = Vec::new();
        for place in 0..9 {
            let byte = if place < 3 || self.c.in_a_hundred(40) { 0 } else { self.c.below(256) };
            left.push(byte);
        }
        if self.c.in_a_hundred(50) {
            left.reverse();
        }
        let mut right = left.clone();
        match self.c.small(5) {
            0 | 1 => {
                let place = self.c.below(9) as usize;
                right[place] ^= 1 << self.c.below(8);
            }
            2 => {
                let length = self.c.below(17) as usize;
                let side = if self.c.in_a_hundred(50) { &mut left } else { &mut right };
                side.resize(length, 0);
            }
            3 if self.c.in_a_hundred(50) => {
                let length = self.c.below(17) as usize;
                left.resize(length, 0);
                right.resize(length, 0);
            }
            _ => {}
        }
        let mut words = vec![b"compare".to_vec()];
        for byte in left {
            let word = self.spell(byte);
            words.push(word);
        }
        words.push(b"/".to_vec());
        for byte in right {
            let word = self.spell(byte);
            words.push(word);
        }
        self.line(&words);
    }

    // ----- remarks and faults ----------------------------------------------

    fn remark(&mut self) {
        match self.c.small(5) {
            0 => self.raw(b""),
            1 => self.raw(b";"),
            2 => self.raw(b"; write #060 1 \t \xFF\xC3\xA9 ; tick"),
            3 => {
                let length = self.c.one_of(&[998, 999, 1000]);
                let mut line = vec![b'.'; length];
                line[0] = b';';
                self.raw(&line);
            }
            _ => self.raw(b";tick 5"),
        }
    }

    /// A line near or past the longest allowed.
    fn long_line(&mut self) {
        let length = self.c.one_of(&[997, 998, 999, 1000, 1000, 1001, 1001, 1002, 1003, 5000]);
        let mut line;
        match self.c.small(6) {
            0 => {
                line = b"read #".to_vec();
                line.resize(length - 2, b'0');
                line.extend_from_slice(b"60");
            }
            1 => {
                line = b"nine".to_vec();
                line.resize(length, b' ');
            }
            2 => {
                line = vec![b'\t'; length - 4];
                line.extend_from_slice(b"nine");
            }
            3 => {
                line = vec![b';'; length];
            }
            4 => {
                line = b"compare / ".to_vec();
                line.resize(length - 1, b'0');
                line.push(b'7');
            }
            _ => {
                // A line whose last byte is a CR of its own.
                line = b"tick ".to_vec();
                line.resize(length - 1, b'0');
                line.push(b'\r');
            }
        }
        self.raw(&line);
    }

    fn fault(&mut self) {
        let memory = u64::from(self.memory);
        match self.c.small(12) {
            // unknown command
            0 => {
                let line = self.c.one_of::<&[u8]>(&[
                    b"tock",
                    b"WRITE #060 0",
                    b"Tick",
                    b"ticks 3",
                    b"write#060 0",
                    b" ; no remark",
                    b"\t;",
                    b"nine; remark",
                    b"\xFFnine",
                    b"\xC3\xA9",
                    b"nine\r",
                    b"#21",
                    b"/",
                    b"-",
                    b" ",
                    b"\t\t ",
                    b"\0",
                    b"read\x0B#060",
                    b"unknown 1 2 3 4 5 6 7 8 9",
                ]);
                self.raw(line);
            }
            // too few words
            1 => {
                let line = self.c.one_of::<&[u8]>(&[
                    b"write",
                    b"write 1",
                    b"write x",
                    b"read",
                    b"memory",
                    b"poke",
                    b"poke 0",
                    b"poke x",
                    b"fill 0 0 0",
                    b"fill",
                    b"run",
                    b"picture",
                    b"field",
                    b"store",
                    b"store 70",
                    b"store 81 1 2 3 4 5 6 7 8 9 10 11 12 13",
                    b"compare",
                    b"compare 1 2 3 4 5 6 7 8 9",
                    b"compare x",
                    b"compare 1/2",
                    b"compare 1 2 3 4 5 6 7 8 9 1 2 3 4 5 6 7 8 9 1 2 3 4 5 6 7 8 9 1 2 3 4 5 6 7 8",
                ]);
                self.raw(line);
            }
            // too many words
            2 => match self.c.small(6) {
                0 => {
                    let line = self.c.one_of::<&[u8]>(&[
                        b"write 1 2 3",
                        b"write 1 2 ; x",
                        b"read 1 2",
                        b"read x y",
                        b"memory 1 2",
                        b"memory 1048577 1",
                        b"fill 0 0 0 0 0",
                        b"tick 1 2",
                        b"tick 1 ;",
                        b"run 1 2",
                        b"picture 1 2",
                        b"nine 0",
                        b"nine ;",
                        b"store 70 1 2 3 4 5 6 7 8 9 10 11 12 13 14 15",
                    ]);
                    self.raw(line);
                }
                1 => self.command("poke", &[7; 66]),
                2 => self.command("sheet", &[33; 81]),
                3 => self.command("field", &[33; 82]),
                kind => {
                    let counts = if kind == 4 { (17, 2) } else { (2, 17) };
                    let mut words = vec![b"compare".to_vec()];
                    words.extend(std::iter::repeat(b"1".to_vec()).take(counts.0));
                    words.push(b"/".to_vec());
                    words.extend(std::iter::repeat(b"2".to_vec()).take(counts.1));
                    if self.c.in_a_hundred(40) {
                        // A fault on the left is found before the right's count.
                        words[1] = self.c.one_of::<&[u8]>(&[b"x", b"256"]).to_vec();
                    }
                    self.line(&words);
                }
            },
            // not a number
            3 | 4 => {
                let line = self.c.one_of::<&[u8]>(&[
                    b"read x",
                    b"read #",
                    b"read -1",
                    b"read +1",
                    b"read 0x60",
                    b"read 6O",
                    b"read #6G",
                    b"read ##60",
                    b"read 60#",
                    b"read A",
                    b"read 1_0",
                    b"read 1.0",
                    b"read \xEF\xBC\x91",
                    b"read 99999999999999999999999x",
                    b"read #\xB2",
                    b"write 96 ;",
                    b"write x 99999999999",
                    b"write #060 1\r\r",
                    b"poke 0 1 2 x",
                    b"poke x 256",
                    b"fill 0 0 0 -1",
                    b"tick one",
                    b"tick ;",
                    b"run -",
                    b"memory 1048576x",
                    b"picture #",
                    b"sheet 33 0 two",
                    b"field x 33 0 2 0 1",
                    b"field #2G",
                    b"store 81 1 2 3 4 5 6 7 8 9 10 11 12 13 x",
                    b"compare 1 x / 1 2",
                    b"compare 1 / 1 / 2",
                    b"compare / /",
                    b"compare 1 2 / 1/2",
                ]);
                self.raw(line);
            }
            // number too large
            5 => {
                let line = self.c.one_of::<&[u8]>(&[
                    b"read 4294967296",
                    b"read #100000000",
                    b"read 00000000000000000000004294967296",
                    b"read 18446744073709551616",
                    b"read 18446744073709551712",
                    b"read #10000000000000060",
                    b"write 99999999999 x",
                    b"write #060 340282366920938463463374607431768211456",
                    b"poke 0 256",
                    b"poke 4294967295 1 256",
                    b"poke 4294967296 1",
                    b"fill 0 0 4294967296 0",
                    b"tick 4294967296",
                    b"run #FFFFFFFFF",
                    b"memory 4294967296",
                    b"picture 4294967296",
                    b"sheet 256",
                    b"field 4294967296",
                    b"field 33 #100",
                    b"store 81 4294967296 2 3 4 5 6 7 8 9 10 11 12 13 14",
                    b"compare 256 / x",
                    b"compare 1 / 2 300 x",
                ]);
                self.raw(line);
            }
            // beyond the memory
            6 => match self.c.small(5) {
                0 => self.command("poke", &[memory, 1]),
                1 => self.command("poke", &[memory.saturating_sub(1), 1, 2]),
                2 => self.command("poke", &[0xFFFF_FFFF, 1, 2]),
                3 => self.command("fill", &[0, memory + 1, 1, 1]),
                _ => {
                    let numbers = self.c.one_of(&[
                        [0xFFFF_FFFF, 0xFFFF_FFFF, 0, 0],
                        [1, 0xFFFF_FFFF, 0, 0],
                        [memory, 1, 0, 0],
                        [memory, 0, 0, 0],
                        [memory + 1, 0, 0, 0],
                    ]);
                    self.command("fill", &numbers);
                }
            },
            // too large
            7 => {
                let line = self.c.one_of::<&[u8]>(&[
                    b"memory 1048577",
                    b"memory #FFFFFFFF",
                    b"picture 3145729",
                    b"picture 4294967295",
                    b"store 81 1 2 3 4 5 6 7 8 9 10 11 12 13 14",
                    b"store #FFFFFFFF 65536 2 3 4 5 6 7 8 9 10 11 12 13 14",
                ]);
                self.raw(line);
            }
            // too long, and not quite
            8 | 9 => self.long_line(),
            10 => self.remark(),
            _ => {
                let line = self.c.one_of::<&[u8]>(&[
                    b"tick 0",
                    b"run 0",
                    b"sheet",
                    b"field #21",
                    b"field 0",
                    b"compare /",
                    b"compare 1 /",
                    b"picture 0",
                    b"  read\t#00060\t ",
                    b"read 0000000000000000000000000000000000000000000000000000000000000096",
                ]);
                self.raw(line);
            }
        }
    }

    // ----- one screen, from registers to its last event -----------------------

    fn episode(&mut self) {
        let depth = self.c.small(4);
        let shape = match self.c.small(100) {
            0..=7 => Shape::Tall,
            8..=14 => Shape::Wide,
            15..=18 => Shape::Long,
            19 | 20 => Shape::Tower,
            _ => Shape::Small,
        };
        // A tower's lines are short: 8 bits alone allow that.
        let depth = if shape == Shape::Tower { 3 } else { depth };
        let laced = self.c.in_a_hundred(50);
        let bench_screen = if laced { INTERLACED_BENCH_SCREEN } else { BENCH_SCREEN };
        let new_screen = if self.c.in_a_hundred(8) {
            bench_screen
        } else {
            screen(&mut self.c, SHIFT_PERIODS[depth as usize], shape, laced)
        };
        // The bench screens' Display fits 8 bits alone.
        let depth = if new_screen == bench_screen { 3 } else { depth };

        self.stop();
        self.screen = new_screen;
        self.write_parameters();
        for _ in 0..self.c.below(3) {
            let place = self.c.small(14);
            self.read(0x021 + place);
        }
        let mut control = self.running_control(depth, laced);
        for _ in 0..self.c.below(3) {
            self.damaged_start(control);
        }
        if self.c.in_a_hundred(10) {
            self.odd_and_even(control);
        }
        if self.c.in_a_hundred(10) {
            self.limits_of_ten(control);
        }
        self.colours(depth);
        if self.c.in_a_hundred(80) {
            self.cursor();
        }

        // An address that rolls over, at any increment, can be followed where nothing
        // is read.
        if self.c.in_a_hundred(15) {
            control |= self.c.one_of(&[FORCED_BLANK, TRANSFERS_OFF]);
            let increment = increment_of(control);
            let rows = rows(&self.screen, laced);
            let most = self.c.one_of(&[(rows * increment).min(0xFF_FFFF), row_unit(control)]);
            let back = 1 + self.c.below(most);
            self.top = (0x100_0000 - back) as u32;
            self.lend_memory(64);
        } else {
            let (top, needed) = self.choose_top(control);
            self.top = top;
            self.lend_memory(needed);
        }
        self.write(0x080, self.top);
        self.write_control(control);

        let frame = self.frame_ticks();
        if shape == Shape::Tower || shape == Shape::Wide {
            self.far_cursor(shape == Shape::Tower);
        }
        if self.c.in_a_hundred(50) {
            self.picture(true);
            self.nine();
        }
        if frame <= 900 + 400 * u64::from(laced) && self.c.in_a_hundred(50) {
            self.tick(frame);
            self.nine();
        }
        for _ in 0..6 + self.c.below(18) {
            self.event();
        }
        match self.c.small(20) {
            0 | 1 => self.soup(),
            2 => self.bright_frame(),
            _ => {}
        }
    }

    // ----- pictures ----------------------------------------------------------

    /// One screen from registers to a picture that is drawn, within 30,000 bytes.
    fn drawn_screen(&mut self) {
        let laced = self.c.in_a_hundred(65);
        let depth = self.c.small(4);
        let new_screen = loop {
            let shape = match self.c.small(10) {
                0 => Shape::Tall,
                1 => Shape::Wide,
                _ => Shape::Small,
            };
            let drawn = screen(&mut self.c, SHIFT_PERIODS[depth as usize], shape, laced);
            if picture_length(&drawn, laced) <= 30_000 {
                break drawn;
            }
        };
        self.stop();
        self.screen = new_screen;
        self.write_parameters();
        self.colours(depth);
        if depth == 3 {
            // So that few places show an entry that was never written.
            self.write(0x040, 0x0F_0F0F);
        }
        if self.c.in_a_hundred(60) {
            self.cursor();
        }
        let control = self.running_control(depth, laced);
        let (top, needed) = self.choose_top(control);
        self.top = top;
        self.write(0x080, top);
        self.memory = (needed + self.c.one_of(&[0, 0, 1, 100])).min(1_048_576) as u32;
        self.command("memory", &[u64::from(self.memory)]);
        let (start, step) = (self.c.below(256), 1 + 2 * self.c.below(128));
        self.command("fill", &[0, u64::from(self.memory), start, step]);
        self.write_control(control);
        if self.c.in_a_hundred(30) {
            let ticks = self.c.below(self.frame_ticks());
            self.run(ticks);
            self.to_the_frame_start();
            if self.position != Some(0) {
                self.restart_at_once();
            }
        }
        self.command("picture", &[picture_length(&new_screen, laced)]);
    }

    fn restart_at_once(&mut self) {
        let control = self.control;
        self.write_control(control & !RUN);
        self.write_control(control);
    }

    /// What may follow a picture: refused ones, ticks, registers of another screen, and
    /// now and then a picture in the other format.
    fn after_a_picture(&mut self) {
        match self.c.small(6) {
            0 => {
                let length = picture_length(&self.screen, self.laced()) + 1;
                self.command("picture", &[length]);
            }
            1 => {
                let ticks = 1 + self.c.below(20);
                self.run(ticks);
            }
            2 => self.tick(2),
            3 => {
                self.write_control(self.control & !RUN ^ INTERLACED);
                for place in [DISPLAY, V_DISPLAY, LINE_TIME] {
                    self.write(0x021 + place as u32, self.screen[place] + 2);
                }
            }
            4 => self.fault(),
            _ => self.change_format(),
        }
    }
}

/// Nothing written, and about so many ticks to spend.
fn empty_script(seed: u64, ticks: u64) -> Script {
    let mut c = Chance(seed);
    let cr_lf = c.one_of(&[0, 0, 5, 50, 100]);
    let blanks = c.one_of(&[0, 3, 10, 60]);
    Script {
        c,
        out: Vec::new(),
        lines: 0,
        cr_lf,
        blanks,
        screen: [0; 14],
        control: 0,
        top: 0,
        memory: 0,
        position: None,
        tick_lines: 3_000,
        ticks,
        picture_bytes: 60_000,
    }
}

/// A script of one to three screens, a picture of each; then commands that draw none.
fn woven(seed: u64) -> Vec<u8> {
    let mut s = empty_script(seed, 20_000);
    for _ in 0..1 + s.c.below(3) {
        s.drawn_screen();
    }
    for _ in 0..s.c.below(5) {
        s.after_a_picture();
    }
    s.out
}

/// A script of about so many lines, which runs about so many ticks at most.
fn script(seed: u64, lines: usize, ticks: u64) -> Vec<u8> {
    let mut s = empty_script(seed, ticks);

    // The beginning: all registers 0, stopped.
    for _ in 0..s.c.below(6) {
        match s.c.small(6) {
            0 => s.any_read(),
            1 => s.nine(),
            2 => s.tick(1),
            3 => {
                let control = s.c.one_of(&[0x30_0001, 0x30_0003]);
                s.write(0x060, control);
            }
            4 => s.refused_write(),
            _ => s.fault(),
        }
    }
    while s.lines < lines {
        s.episode();
    }
    if s.c.in_a_hundred(50) {
        s.read_all();
    }
    if s.c.in_a_hundred(30) {
        s.fault();
    }
    if s.c.in_a_hundred(2) {
        // One line of up to a million characters.
        let length = 2_000 + s.c.below(1_000_000) as usize;
        let character = s.c.one_of(b"x0; ");
        s.raw(&vec![character; length]);
        s.nine();
    }

    // The end of the script: whole, without its last line's end, or cut anywhere.
    let mut out = s.out;
    match s.c.small(20) {
        0 => {
            let length = s.c.below(out.len() as u64 + 1) as usize;
            out.truncate(length);
        }
        1 | 2 => {
            while out.last().is_some_and(|&last| last == b'\n' || last == b'\r') {
                out.pop();
            }
        }
        3 => {
            while out.last().is_some_and(|&last| last == b'\n' || last == b'\r') {
                out.pop();
            }
            out.push(b'\r');
        }
        _ => {}
    }
    out
}

fn main() -> ExitCode {
    let words: Vec<String> =
        std::env::args_os().skip(1).map(|word| word.to_string_lossy().into_owned()).collect();
    let words: Vec<&str> = words.iter().map(String::as_str).collect();
    let (kind, seed) = match words[..] {
        [seed] => ("", seed.parse().ok()),
        [kind @ ("damaged" | "woven"), seed] => (kind, seed.parse().ok()),
        _ => ("", None),
    };
    let Some(seed) = seed else {
        let _ = writeln!(std::io::stderr(), "use: generate [damaged | woven] SEED, SEED below 2^64");
        return ExitCode::from(2);
    };
    let bytes = match kind {
        "damaged" => damaged::script(seed),
        "woven" => woven(seed),
        _ => script(seed, 240, 150_000),
    };
    match std::io::stdout().lock().write_all(&bytes) {
        Ok(()) => ExitCode::SUCCESS,
        Err(_) => ExitCode::from(1),
    }
}
