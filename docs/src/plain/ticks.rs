// An ordinary Rust tick loop of the digital side of the IMS G364, written from document 01 ("Lines and frames", "Rows and pixels"), to
// compare the proved tick with, for equality and for speed. It shares no code with crates/. Standard library only; one command builds it:
//
//     rustc --edition 2021 -O docs/src/plain/ticks.rs -o target/speed/ticks
//
// It then checks itself on document 01's bench screen and, on 1,000 random small screens whose registers are written between ticks, against
// ticks worked out afresh. It prints its time for a tick of a 1,024 by 768 screen, at each depth, cursor on and off: the least of 50 runs
// of a frame, or of as many as the argument says. Built with `--cfg ours` and linked with the crate `speed`, as docs/src/plain/run.sh
// does, it also ticks 2,000 random small screens and the large ones both ways, compares every word of every tick and the sums, and prints
// both times: taken in turn, and at the end of a line its own taken alone.
#![allow(unexpected_cfgs)]
use std::array::from_fn;
use std::hint::black_box;
use std::ops::Range;
use std::time::Instant;

// What may be written between any two ticks; control only so that bit 0 stays and the screen is still accepted.
#[derive(Clone)]
pub struct Registers {
    pub mask: u32,
    pub control: u32,
    pub top: u32,
    pub position: u32,
    pub colours: [u32; 3],
    pub palette: [u32; 256],
    pub store: [u16; 512],
}

// Control A; the increment stands in bits 13, 12 and the depth code in bits 21, 20.
const PLAIN_SYNC: u32 = 1 << 4;
const FORCED_BLANK: u32 = 1 << 10;
const TRANSFERS_OFF: u32 = 1 << 14;
const CURSOR_OFF: u32 = 1 << 23;
const INCREMENT_BITS: [u32; 4] = [0, 8, 9, 10]; // increments 1, 256, 512, 1,024
const SHIFT_PERIODS: [u32; 4] = [16, 8, 4, 2];

impl Registers {
    fn set(&self, bit: u32) -> bool {
        self.control & bit != 0
    }

    fn increment_bits(&self) -> u32 {
        INCREMENT_BITS[(self.control >> 12 & 3) as usize]
    }

    // 0, 1, 2, 3 for 1, 2, 4, 8 bits a pixel.
    fn depth(&self) -> u32 {
        self.control >> 20 & 3
    }

    // The cursor's left upper corner, two fields in 12-bit two's complement.
    fn corner(&self) -> (i32, i32) {
        ((self.position << 8) as i32 >> 20, (self.position << 20) as i32 >> 20)
    }

    // A pixel's colour, each channel through its byte of the mask and the palette.
    fn colour(&self, pixel: u32) -> u32 {
        let channel = |byte: u32| self.palette[(pixel & self.mask >> byte & 255) as usize] & 255 << byte;
        channel(16) | channel(8) | channel(0)
    }
}

#[derive(Clone)]
pub struct Setup {
    pub params: [u32; 14], // HalfSync to TransferDelay, in register order, #021 to #02E
    pub registers: Registers,
}

#[derive(Default)]
pub struct Tick {
    pub levels: u32,
    pub address: u32, // 0 where no transfer
    pub colours: [u32; 4],
}

// The levels, high where the bit is 1.
const SYNC: u32 = 1;
const VSYNC: u32 = 2;
const INACTIVE: u32 = 4;
const BLANK: u32 = 8;
const REQUEST: u32 = 16;
const TRANSFER: u32 = 32;

// One of a frame's five periods, a number of equal cycles.
struct Period {
    cycles: u32,
    length: u32,   // of a cycle, in ticks
    low: [u32; 2], // sync is low for so many ticks from a cycle's beginning: tesselated, plain
    levels: u32,   // those that are the same throughout
}

const VDISPLAY: usize = 4; // the last period

#[derive(Default)]
struct Generator {
    period: usize,
    cycle: u32,  // in the period
    tick: u32,   // in the cycle
    held: u32,   // the row's address
    within: u32, // the next visible tick's number in its row; the row length where a new row is due
    asked: bool, // the request's level unless transfers are off, kept between lines
    sums: [u32; 3],
}

pub struct Screen {
    pub registers: Registers, // each tick takes them as they stand
    // from the parameters, which stay as they are while it runs
    periods: [Period; 5],
    visible: Range<u32>, // the Display ticks of a line
    mem_init: u32,
    delay: u32,
    g: Generator,
}

impl Screen {
    pub fn start(setup: &Setup) -> Screen {
        let [half_sync, back_porch, display, _, broad_pulse, vsync, pre, post, vblank, vdisplay, line, _, mem_init, delay] = setup.params;
        let (half, first) = (line / 2, 2 * half_sync + back_porch);
        #[rustfmt::skip]
        let periods = [
            Period { cycles: pre, length: half, low: [half_sync, 0], levels: VSYNC | INACTIVE },
            Period { cycles: vsync, length: half, low: [broad_pulse, half], levels: INACTIVE },
            Period { cycles: post, length: half, low: [half_sync, 0], levels: VSYNC | INACTIVE },
            Period { cycles: vblank / 2, length: line, low: [2 * half_sync; 2], levels: VSYNC | INACTIVE },
            Period { cycles: vdisplay / 2, length: line, low: [2 * half_sync; 2], levels: VSYNC },
        ];
        let (registers, visible) = (setup.registers.clone(), first..first + display);
        Screen { registers, periods, visible, mem_init, delay, g: Generator::default() }
    }

    // Ticks on, six words of `out` to a tick. Answers the ticks done, the refusal that ended them or 0, and the sums.
    #[inline(never)]
    pub fn run(&mut self, memory: &[u8], out: &mut [u32]) -> (usize, u32, [u32; 3]) {
        for (done, words) in out.chunks_exact_mut(6).enumerate() {
            match self.tick(memory) {
                Ok(tick) => {
                    words[0] = tick.levels;
                    words[1] = tick.address;
                    words[2..].copy_from_slice(&tick.colours);
                }
                Err(refusal) => return (done, refusal, self.g.sums),
            }
        }
        (out.len() / 6, 0, self.g.sums)
    }

    // One tick: every signal, or refusal 20, which changes nothing.
    pub fn tick(&mut self, memory: &[u8]) -> Result<Tick, u32> {
        let period = &self.periods[self.g.period];
        let low = period.low[self.registers.set(PLAIN_SYNC) as usize];
        let levels = period.levels | if self.g.tick < low { 0 } else { SYNC };
        let mut answer = Tick { levels, ..Tick::default() };
        if self.g.period == VDISPLAY && self.visible.contains(&self.g.tick) {
            self.visible_tick(memory, &mut answer)?;
        } else {
            answer.levels |= BLANK;
            self.other_tick();
        }
        if self.g.asked && !self.registers.set(TRANSFERS_OFF) {
            answer.levels |= REQUEST;
        }
        self.advance();
        Ok(answer)
    }

    fn visible_tick(&mut self, memory: &[u8], answer: &mut Tick) -> Result<(), u32> {
        let (r, transfers) = (&self.registers, !self.registers.set(TRANSFERS_OFF));
        let (mut held, mut within) = (self.g.held, self.g.within);
        if within == self.mem_init + self.delay {
            (held, within) = ((held + (1 << r.increment_bits())) & 0xffffff, 0);
        }
        if r.set(FORCED_BLANK) {
            answer.levels |= BLANK;
        } else {
            let pixels = if transfers { self.read(memory, held, within).ok_or(20u32)? } else { [0; 4] };
            answer.colours = pixels.map(|pixel| r.colour(pixel));
            self.lay_cursor(&mut answer.colours);
            let red_blue: u32 = answer.colours.iter().map(|colour| colour & 0xff00ff).sum(); // four bytes come to #3FC at most
            let green: u32 = answer.colours.iter().map(|colour| colour >> 8 & 255).sum();
            for (sum, four) in self.g.sums.iter_mut().zip([red_blue >> 16, green, red_blue & 0xffff]) {
                *sum = (*sum + four) & 0xffffff;
            }
        }
        if transfers && within == 0 {
            answer.levels |= TRANSFER;
            answer.address = held;
        }
        self.g.held = held;
        self.g.within = within + 1;
        self.g.asked = transfers && within >= self.mem_init;
        Ok(())
    }

    fn other_tick(&mut self) {
        let (last, g) = (self.periods[VDISPLAY].cycles - 1, &mut self.g);
        match (g.period, g.cycle, g.tick) {
            (VDISPLAY, 0, 0) => (g.held, g.within, g.sums) = (self.registers.top, 0, [0; 3]),
            (VDISPLAY, 0, tick) if tick + self.delay == self.visible.start => g.asked = true,
            (VDISPLAY, line, tick) if line == last && tick == self.visible.end => g.asked = false,
            _ => (),
        }
    }

    fn advance(&mut self) {
        let (period, g) = (&self.periods[self.g.period], &mut self.g);
        g.tick += 1;
        if g.tick == period.length {
            g.tick = 0;
            g.cycle += 1;
            if g.cycle == period.cycles {
                g.cycle = 0;
                g.period = (g.period + 1) % self.periods.len();
            }
        }
    }

    // A tick's four pixels: half a byte, one, two or four bytes, lowest bits first; nothing when they end beyond the memory.
    fn read(&self, memory: &[u8], held: u32, within: u32) -> Option<[u32; 4]> {
        let (row, depth) = ((held >> self.registers.increment_bits()) as usize, self.registers.depth());
        let pixel = 4 * (row * (self.mem_init + self.delay) as usize + within as usize); // the first one's number in the memory
        let bit = pixel << depth;
        let rest = memory.get(bit / 8..)?;
        let four = |word: u32, bits: u32| [0, 1, 2, 3].map(|k| word >> (k * bits) & ((1 << bits) - 1));
        Some(match depth {
            0 => four(*rest.first()? as u32 >> (bit % 8), 1),
            1 => four(*rest.first()? as u32, 2),
            2 => four(u16::from_le_bytes(*rest.first_chunk()?) as u32, 4),
            _ => four(u32::from_le_bytes(*rest.first_chunk()?), 8),
        })
    }

    fn lay_cursor(&self, colours: &mut [u32; 4]) {
        let (r, (left, upper)) = (&self.registers, self.registers.corner());
        let row = self.g.cycle as i32 - upper;
        let first = 4 * (self.g.tick - self.visible.start) as i32 - left; // the first pixel's column
        if r.set(CURSOR_OFF) || !(0..64).contains(&row) || !(-3..64).contains(&first) {
            return;
        }
        for (colour, column) in colours.iter_mut().zip(first..) {
            if (0..64).contains(&column) {
                let word = r.store[(8 * row + column / 8) as usize];
                let code = word >> (2 * (column % 8)) & 3;
                if code != 0 {
                    *colour = r.colours[code as usize - 1];
                }
            }
        }
    }
}

// None of refusals 10 to 17, in this order.
fn accepted(params: &[u32; 14], control: u32) -> bool {
    let [half_sync, back_porch, display, short, broad_pulse, .., vblank, vdisplay, line, _, _, delay] = *params;
    let first = 2 * half_sync + back_porch;
    (0..14).all(|k| k == 11 || (1..=4095).contains(&params[k]))
        && line % 2 == 0
        && line > first + display
        && first + short < line / 2
        && broad_pulse < line / 2
        && display % SHIFT_PERIODS[(control >> 20 & 3) as usize] == 0
        && vdisplay % 2 == 0
        && vblank % 2 == 0
        && (delay + 1 < back_porch && delay <= short)
}

fn frame_ticks(params: &[u32; 14]) -> usize {
    (params[5..10].iter().sum::<u32>() * (params[10] / 2)) as usize
}

// Numbers that look random and are the same in every run (xorshift).
struct Random(u64);

impl Random {
    fn seeded(seed: u64) -> Random {
        Random((seed + 1).wrapping_mul(0x9e3779b97f4a7c15))
    }

    fn next(&mut self) -> u32 {
        self.0 ^= self.0 << 13;
        self.0 ^= self.0 >> 7;
        self.0 ^= self.0 << 17;
        (self.0.wrapping_mul(0x2545f4914f6cdd1d) >> 32) as u32
    }

    fn below(&mut self, n: u32) -> u32 {
        self.next() % n
    }

    fn bytes(&mut self, words: usize) -> Vec<u8> {
        (0..words).flat_map(|_| self.next().to_le_bytes()).collect()
    }

    // These parameters and this control word, top 0, the cursor at 500, 300, the rest random.
    fn setup(&mut self, params: [u32; 14], control: u32) -> Setup {
        let registers = Registers {
            mask: self.below(1 << 24),
            control,
            top: 0,
            position: 500 << 12 | 300,
            colours: from_fn(|_| self.below(1 << 24)),
            palette: from_fn(|_| self.below(1 << 24)),
            store: from_fn(|_| self.next() as u16),
        };
        Setup { params, registers }
    }

    // A small accepted screen in any mode.
    fn small(&mut self) -> Setup {
        let (depth, lines) = (self.below(4), [4, 12, 80][self.below(3) as usize]);
        let row = [50, 50, 50, 4095][self.below(4) as usize];
        let mut control = 1 | depth << 20 | self.below(4) << 12 | self.next() & 0x3e4; // bits 2 and 5 to 9 have no effect
        for (bit, one_in) in [(PLAIN_SYNC, 2), (FORCED_BLANK, 8), (TRANSFERS_OFF, 8), (CURSOR_OFF, 4)] {
            control |= if self.below(one_in) == 0 { bit } else { 0 };
        }
        let mut s = self.setup([0; 14], control);
        while !accepted(&s.params, control) {
            let spans = [4, 14, 3 << depth, 14, 40, 5, 5, 5, 4, lines, 60, 0xffffff, row, 10];
            s.params = spans.map(|span| 1 + self.below(span));
            s.params[2] *= SHIFT_PERIODS[depth as usize];
            s.params[8..11].iter_mut().for_each(|param| *param *= 2); // VBlank, VDisplay, LineTime
        }
        (s.registers.top, s.registers.position) = (self.top(&s.registers), self.position(&s.params));
        s
    }

    fn top(&mut self, r: &Registers) -> u32 {
        let (any, low) = (self.below(1 << 24), self.below(8 << r.increment_bits()));
        [any, low, low, 0xffffff - low / 2][self.below(4) as usize] // the last one rolls over
    }

    fn position(&mut self, params: &[u32; 14]) -> u32 {
        let mut near = |size| (self.below(size + 80) + 4096 - 70) % 4096; // from -70 to 9 past the edge
        near(4 * params[2]) << 12 | near(params[9] / 2)
    }

    // One write, at random, that a running screen takes.
    fn write(&mut self, params: &[u32; 14], r: &mut Registers) {
        match self.below(12) {
            0 => r.mask = self.below(1 << 24),
            1 => r.palette[self.below(256) as usize] = self.below(1 << 24),
            2 => r.colours[self.below(3) as usize] = self.below(1 << 24),
            3 => r.store[self.below(512) as usize] = self.next() as u16,
            4 => r.position = self.position(params),
            5 => r.top = self.top(r),
            _ => {
                let control = r.control ^ 1 << [4, 10, 12, 13, 14, 20, 21, 23][self.below(8) as usize];
                r.control = if accepted(params, control) { control } else { r.control };
            }
        }
    }
}

// What document 01 says of the bench screen and its neighbours, at 8 bits.
fn check_bench() {
    let mut bench = Random::seeded(0).setup([1, 3, 2, 1, 4, 1, 1, 1, 2, 4, 14, 0, 1, 1], 0x300001 | CURSOR_OFF);
    (bench.registers.mask, bench.registers.palette[5]) = (0xffffff, 0x102030);
    let frame = |memory: &[u8], change: fn(&mut Registers)| {
        let (mut setup, mut out) = (bench.clone(), [0; 6 * 63]);
        change(&mut setup.registers);
        let result = Screen::start(&setup).run(memory, &mut out);
        (out, result)
    };
    let at = |out: &[u32], level, wanted| -> Vec<usize> { (0..63).filter(|t| (out[6 * t] & level != 0) == wanted).collect() };
    let (out, result) = frame(&[5; 16], |_| ());
    assert_eq!((accepted(&bench.params, bench.registers.control), frame_ticks(&bench.params)), (true, 63));
    assert_eq!(result, (63, 0, [0x100, 0x200, 0x300])); // checksums #000000, #010203, #000000
    assert_eq!(at(&out, BLANK, false), [40, 41, 54, 55]);
    assert_eq!(at(&out, TRANSFER, true), [40, 54]);
    assert_eq!(at(&out, REQUEST, true), [&[39], &Vec::from_iter(41..=53)[..], &[55]].concat());
    assert_eq!(at(&out, VSYNC, false), Vec::from_iter(7..14));
    assert_eq!(at(&out, INACTIVE, false), Vec::from_iter(35..63));
    assert_eq!(at(&out, SYNC, false).len(), 12);
    assert_eq!(at(&frame(&[5; 16], |r| r.control |= PLAIN_SYNC).0, SYNC, false).len(), 13);

    let rows = |r: &mut Registers| (r.top, r.control) = (7, r.control | 1 << 12);
    let (out, result) = frame(&[5; 16], rows);
    assert_eq!((result.0, result.1, out[6 * 40 + 1], out[6 * 54 + 1]), (63, 0, 7, 263));
    assert_eq!(frame(&[5; 15], rows).1, (55, 20, [0xc0, 0x180, 0x240])); // the sums of three ticks

    let (out, _) = frame(&[5; 16], |r| (r.palette[0], r.mask) = (0x0a0b0c, 0xff00ff));
    assert_eq!(out[6 * 40 + 2..6 * 41], [0x100b30; 4]);
    let (out, _) = frame(&[5; 16], |r| {
        (r.position, r.colours[1], r.control) = (0xfc1000, 0x223344, r.control & !CURSOR_OFF);
        r.store = from_fn(|word| if word == 7 { 2 << 14 } else { 0 });
    });
    assert_eq!(out[6 * 40 + 2..6 * 41], [0x223344, 0x102030, 0x102030, 0x102030]);
    println!("plain: bench screen as document 01 says");
}

// A tick's six words worked out afresh, by division, from its number in the frame and the registers. `past` has control and top as they
// stood at each of the frame's ticks so far, this one last.
fn naive(params: &[u32; 14], r: &Registers, past: &[(u32, u32)], memory: &[u8]) -> Result<[u32; 6], u32> {
    let params = params.map(|param| param as usize);
    let [half_sync, back_porch, display, _, broad_pulse, vsync, pre, post, vblank, vdisplay, line, _, mem_init, delay] = params;
    let (now, half, first, row) = (past.len() - 1, line / 2, 2 * half_sync + back_porch, mem_init + delay);
    let (full, start) = ((pre + vsync + post) * half, (pre + vsync + post + vblank) * half); // full lines and VDisplay begin
    let in_vsync = (pre..pre + vsync).contains(&(now / half));
    let low = match r.control >> 4 & 1 {
        _ if now >= full => (now - full) % line < 2 * half_sync,
        0 => now % half < if in_vsync { broad_pulse } else { half_sync },
        _ => in_vsync,
    };
    let (y, t) = (now.saturating_sub(start) / line, now.saturating_sub(start) % line);
    let count = y * display + (t + 1).saturating_sub(first).min(display); // of the visible ticks so far, this one with them
    let tick_of = |v: usize| start + v / display * line + first + v % display; // which tick of the frame is visible tick v
    let (off, increment) = (|t: usize| past[t].0 >> 14 & 1 == 1, |t: usize| [1, 256, 512, 1024][(past[t].0 >> 12 & 3) as usize]);
    let (v, visible) = (count.saturating_sub(1), count > 0 && tick_of(count - 1) == now);
    let request = match count {
        0 => now + delay >= tick_of(0),
        _ => (visible || count < display * vdisplay / 2) && v % row >= mem_init && !off(tick_of(v)),
    };
    let held = (1..=v / row).fold(past[start.min(now)].1, |held, k| (held + increment(tick_of(k * row))) % (1 << 24));
    let (transfer, shown) = (visible && v % row == 0 && !off(now), visible && r.control >> 10 & 1 == 0);
    let levels = [!low, !in_vsync, now < start, !shown, request && !off(now), transfer];
    let mut words = [(0..6).map(|k| (levels[k] as u32) << k).sum(), if transfer { held } else { 0 }, 0, 0, 0, 0];
    for i in (0..4).filter(|_| shown) {
        let (bits, place) = (1 << (r.control >> 20 & 3), ((held / increment(now)) as usize * row + v % row) * 4 + i);
        let bit = |b| Some((*memory.get((place * bits + b) / 8)? as usize >> ((place * bits + b) % 8) & 1) << b);
        let pixel = if off(now) { 0 } else { (0..bits).map(bit).sum::<Option<usize>>().ok_or(20u32)? };
        let [_, red, green, blue] = r.mask.to_be_bytes().map(|byte| r.palette[pixel & byte as usize].to_be_bytes());
        let signed = |field: u32| (field as i32 + 2048) % 4096 - 2048;
        let (x, y) = ((4 * (t - first) + i) as i32 - signed(r.position / 4096), y as i32 - signed(r.position % 4096));
        let under = r.control >> 23 & 1 == 0 && x >= 0 && x < 64 && y >= 0 && y < 64;
        let code = if under { r.store[(8 * y + x / 8) as usize] / 4u16.pow(x as u32 % 8) % 4 } else { 0 };
        words[2 + i] = [u32::from_be_bytes([0, red[1], green[2], blue[3]]), r.colours[0], r.colours[1], r.colours[2]][code as usize];
    }
    Ok(words)
}

// Random small screens, their registers written between ticks: every word, every refusal and the sums after each tick.
fn check_writes() {
    let memory = Random::seeded(365).bytes(1 << 20);
    let (mut writes, mut ticks, mut refused) = (0, 0, 0);
    for seed in 0..1000 {
        let mut n = Random::seeded(seed);
        let (s, memory, one_in) = (n.small(), &memory[..n.below(1 << 22) as usize], [2, 20, 200][n.below(3) as usize]);
        let (mut screen, mut past, mut sums) = (Screen::start(&s), Vec::new(), [0; 3]);
        let (frame, vdisplay) = (frame_ticks(&s.params), (s.params[9] * s.params[10] / 2) as usize);
        for call in 0..(3 * frame).min(10_000) {
            while n.below(one_in) == 0 {
                n.write(&s.params, &mut screen.registers);
                writes += 1;
            }
            let mut words = [0; 6];
            let (done, refusal, plain) = screen.run(memory, &mut words);
            let answer = if done == 1 { Ok(words) } else { Err(refusal) };
            past.push((screen.registers.control, screen.registers.top));
            let before = if past.len() - 1 == frame - vdisplay { [0; 3] } else { sums };
            sums = from_fn(|k| (before[k] + words[2..].iter().map(|colour| colour >> (16 - 8 * k) & 255).sum::<u32>()) % (1 << 24));
            let wanted = (naive(&s.params, &screen.registers, &past, memory), sums);
            assert_eq!((answer, plain), wanted, "seed {seed}, call {call}");
            past.truncate(if done == 1 { past.len() % frame } else { past.len() - 1 });
            (ticks, refused) = (ticks + done, refused + 1 - done);
        }
    }
    println!("plain: {ticks} ticks of 1000 small screens, {writes} writes between them and {refused} refusals, as worked out afresh");
}

#[cfg(ours)]
mod ours {
    use super::*;

    unsafe extern "C" {
        fn speed_ticks(
            params: &[u32; 14],
            mask: u32,
            control: u32,
            top: u32,
            colours: &[u32; 3],
            position: u32,
            palette: &[u32; 256],
            store: &[u16; 512],
            memory: *const u8,
            memory_len: usize,
            out: *mut u32,
            out_len: usize,
            sums: &mut [u32; 3],
        ) -> u64;
    }

    // The proved loop: the refusal * 2^32 + the ticks done, and the sums. Every screen that this program makes runs, and is one that the
    // calls can give from the beginning.
    #[inline(never)]
    pub fn ticks(s: &Setup, m: &[u8], out: &mut [u32]) -> (u64, [u32; 3]) {
        let (r, mut sums) = (&s.registers, [0; 3]);
        let answer = unsafe {
            speed_ticks(
                &s.params,
                r.mask,
                r.control,
                r.top,
                &r.colours,
                r.position,
                &r.palette,
                &r.store,
                m.as_ptr(),
                m.len(),
                out.as_mut_ptr(),
                out.len(),
                &mut sums,
            )
        };
        (answer, sums)
    }

    // Both ways: every word of every tick, the ticks done, the refusal and the sums are equal; past the ticks done no word is written.
    pub fn agree(name: &str, s: &Setup, memory: &[u8], count: usize) -> (usize, u32) {
        let (mut a, mut b) = (vec![0xaaaaaaaa; 6 * count], vec![0x55555555; 6 * count]);
        let (done, refusal, plain) = Screen::start(s).run(memory, &mut a);
        let (answer, sums) = ticks(s, memory, &mut b);
        assert_eq!(done as u64 | (refusal as u64) << 32, answer, "{name}: ticks done and refusal");
        if let Some(k) = (0..6 * done).find(|&k| a[k] != b[k]) {
            panic!("{name}: tick {}, word {}: plain {:#x}, ours {:#x}", k / 6, k % 6, a[k], b[k]);
        }
        assert!(b[6 * done..].iter().all(|&word| word == 0x55555555), "{name}: a word past the ticks done");
        assert_eq!(plain, sums, "{name}: sums");
        (done, refusal)
    }

    // How many bytes hold every pixel that a frame reads.
    fn bytes_read(s: &Setup) -> usize {
        let (row, visible) = ((s.params[12] + s.params[13]) as usize, (s.params[2] * s.params[9] / 2) as usize);
        let end = |k: usize| {
            let address = (s.registers.top + ((k as u32) << s.registers.increment_bits())) & 0xffffff;
            let ticks = (address >> s.registers.increment_bits()) as usize * row + row.min(visible - k * row);
            ((4 * ticks) << s.registers.depth()).div_ceil(8)
        };
        (0..visible.div_ceil(row)).map(end).max().unwrap()
    }

    pub fn agree_on_small_screens() {
        let memory = Random::seeded(364).bytes(1 << 23);
        let (mut total, mut refused) = (0, 0);
        for seed in 0..2000 {
            let mut n = Random::seeded(seed);
            let s = n.small();
            let enough = bytes_read(&s).min(memory.len());
            let length = [n.below(enough as u32) as usize, enough - 1, enough][n.below(8).min(2) as usize];
            let count = (3 * frame_ticks(&s.params)).min(20_000);
            let (done, refusal) = agree(&format!("seed {seed}"), &s, &memory[..length], count);
            total += done;
            refused += (refusal != 0) as u32;
        }
        println!("2000 small screens agree: {total} ticks, {refused} of the screens refused");
    }
}

// The nanoseconds that each of the ticks took, in the second of two calls: the first one warms up what the other side left cold.
fn timed<T>(ticks: usize, mut call: impl FnMut() -> T) -> f64 {
    black_box(call());
    let began = Instant::now();
    black_box(call());
    began.elapsed().as_secs_f64() * 1e9 / ticks as f64
}

fn main() {
    let times: usize = std::env::args().nth(1).map_or(50, |w| w.parse().expect("a number of repetitions"));
    check_bench();
    check_writes();
    let large = [8, 32, 256, 100, 100, 6, 6, 6, 40, 1536, 336, 0, 248, 8]; // 1,024 by 768, R = 256
    let mut n = Random::seeded(0);
    let screens: [Setup; 8] = from_fn(|k| n.setup(large, 1 | (k as u32 / 2) << 20 | (k as u32 % 2) << 23));
    let memory = n.bytes(1024 * 768 / 4);
    let ticks = frame_ticks(&large);
    let mut out = vec![1; 6 * ticks];
    assert!(screens.iter().all(|s| accepted(&large, s.registers.control) && Screen::start(s).run(&memory, &mut out).0 == ticks));
    #[cfg(ours)]
    {
        ours::agree_on_small_screens();
        for (k, s) in screens.iter().enumerate() {
            ours::agree(&format!("large screen {k}"), s, &memory, ticks);
        }
        println!("{} large screens agree: {ticks} ticks each", screens.len());
    }

    let more = ["", "  ours ns/tick  ours/plain  medians' ours/plain  plain alone ns/tick  ours/alone"][cfg!(ours) as usize];
    println!("depth  cursor  plain ns/tick{more}");
    for s in &screens {
        let cursor = if s.registers.set(CURSOR_OFF) { "off" } else { "on" };
        print!("{:5}  {cursor:6}", 1 << s.registers.depth());
        let mut plain = || timed(ticks, || Screen::start(black_box(s)).run(black_box(&memory), black_box(&mut out)));
        let mut alone: Vec<f64> = (0..times).map(|_| plain()).collect();
        alone.sort_by(f64::total_cmp);
        #[cfg(not(ours))]
        println!("  {:13.3}", alone[0]);
        #[cfg(ours)]
        {
            // in turn, so that whatever else the machine does falls on both
            let mut own = vec![2; 6 * ticks];
            let each = |_| (plain(), timed(ticks, || ours::ticks(s, &memory, &mut own)));
            let (mut plain, mut ours): (Vec<f64>, Vec<f64>) = (0..times).map(each).unzip();
            plain.sort_by(f64::total_cmp);
            ours.sort_by(f64::total_cmp);
            let (least, median) = (ours[0] / plain[0], ours[times / 2] / plain[times / 2]);
            print!("  {:13.3}  {:12.3}  {least:10.2}  {median:19.2}", plain[0], ours[0]);
            println!("  {:19.3}  {:10.2}", alone[0], ours[0] / alone[0]);
        }
    }
}
