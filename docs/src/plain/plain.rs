// An ordinary Rust program that draws a whole picture pixel by pixel, as document 01 says it ("Rows and pixels"), to measure the proved
// call against (docs/SPEED.md). It shares no code with the crates. Standard library only; one command builds it:
//
//     rustc --edition 2021 -O docs/src/plain/plain.rs -o target/speed/plain
//
// It draws 1,024 by 768 pixels at 8 bits with the cursor on and prints the sums and its time. Built with `--cfg ours` and linked with the
// crate `speed`, as docs/src/plain/run.sh does, it draws each picture both ways, compares every byte and sum, and prints both times.
#![allow(unexpected_cfgs)]
use std::hint::black_box;
#[cfg(ours)]
use std::time::Duration;
use std::time::Instant;

struct Registers {
    params: [u32; 14], // HalfSync to TransferDelay, in register order
    mask: u32,
    control: u32,
    top: u32,
    colours: [u32; 3],
    position: u32,
    palette: [u32; 256],
    store: [u16; 512],
}

const DISPLAY: usize = 2;
const VDISPLAY: usize = 9;
const MEMINIT: usize = 12;
const TRANSFERDELAY: usize = 13;

// A 12-bit field in two's complement.
fn signed(field: u32) -> i32 {
    ((field << 20) as i32) >> 20
}

// The picture into `buffer`, and the three sums; or the refusal, 20 or 21.
#[inline(never)]
fn draw(r: &Registers, memory: &[u8], buffer: &mut [u8]) -> Result<[u32; 3], u32> {
    let width = 4 * r.params[DISPLAY] as usize;
    let height = r.params[VDISPLAY] as usize / 2;
    if buffer.len() != 3 * width * height {
        return Err(21);
    }
    if r.control & 0x400 != 0 {
        buffer.fill(0);
        return Ok([0; 3]);
    }
    let row = 4 * (r.params[MEMINIT] + r.params[TRANSFERDELAY]) as usize; // in pixels
    let increment = [1, 256, 512, 1024][(r.control >> 12 & 3) as usize];
    let depth = r.control >> 20 & 3;
    let low = (1u32 << (1 << depth)) - 1; // the bits of one pixel
    let reading = r.control & 0x4000 == 0;
    let cursor = r.control & 0x800000 == 0;
    let (left, upper) = (signed(r.position >> 12 & 0xfff), signed(r.position & 0xfff));
    let mask = [r.mask >> 16 & 255, r.mask >> 8 & 255, r.mask & 255];

    let mut sums = [0u32; 3];
    let mut address = r.top as usize;
    let mut first = address / increment * row; // the place of the row's first pixel
    let mut within = 0; // the pixel's number in its row
    let mut out = 0;
    for y in 0..height as i32 {
        for x in 0..width as i32 {
            if within == row {
                within = 0;
                address = (address + increment) % 0x1000000;
                first = address / increment * row;
            }
            let mut pixel = 0;
            if reading {
                let bit = (first + within) << depth;
                let Some(&byte) = memory.get(bit / 8) else { return Err(20) };
                pixel = byte as u32 >> (bit % 8) & low;
            }
            let mut colour = [
                r.palette[(pixel & mask[0]) as usize] >> 16 & 255,
                r.palette[(pixel & mask[1]) as usize] >> 8 & 255,
                r.palette[(pixel & mask[2]) as usize] & 255,
            ];
            if cursor {
                let (column, line) = (x - left, y - upper);
                if (0..64).contains(&column) && (0..64).contains(&line) {
                    let word = r.store[(8 * line + column / 8) as usize];
                    let code = word >> (2 * (column % 8)) & 3;
                    if code != 0 {
                        let c = r.colours[code as usize - 1];
                        colour = [c >> 16 & 255, c >> 8 & 255, c & 255];
                    }
                }
            }
            for k in 0..3 {
                buffer[out + k] = colour[k] as u8;
                sums[k] = (sums[k] + colour[k]) & 0xffffff;
            }
            within += 1;
            out += 3;
        }
    }
    Ok(sums)
}

// Numbers that look random and are the same in every run.
struct Numbers(u64);

impl Numbers {
    fn next(&mut self) -> u32 {
        self.0 = self.0.wrapping_mul(6364136223846793005).wrapping_add(1442695040888963407);
        (self.0 >> 33) as u32
    }

    fn below(&mut self, n: u32) -> u32 {
        self.next() % n
    }
}

// A file with this screen, control word and cursor position, the rest random.
fn registers(n: &mut Numbers, params: [u32; 14], mask: u32, control: u32, top: u32, position: u32) -> Registers {
    let mut r = Registers {
        params,
        mask,
        control,
        top,
        colours: [0; 3],
        position,
        palette: [0; 256],
        store: [0; 512],
    };
    r.colours.fill_with(|| n.below(0x1000000));
    r.palette.fill_with(|| n.below(0x1000000));
    r.store.fill_with(|| n.below(0x10000) as u16);
    r
}

// 1,024 by 768: Display 256, VDisplay 1,536, R = 256, so that the picture is one piece of memory.
const LARGE: [u32; 14] = [8, 20, 256, 100, 100, 6, 6, 6, 60, 1536, 320, 0, 240, 16];
const PIXELS: usize = 1024 * 768;
// 640 by 480, the screen of a hearing chart: Display 160, VDisplay 960, R = 1,024.
const CHART: [u32; 14] = [12, 12, 160, 60, 88, 4, 20, 6, 60, 960, 200, 0, 1016, 8];

// Three bytes for each visible pixel.
fn bytes(r: &Registers) -> usize {
    3 * 4 * r.params[2] as usize * (r.params[9] / 2) as usize
}


#[cfg(ours)]
mod ours {
    #[repr(C)]
    #[derive(Clone, Copy)]
    struct Shown {
        refusal: u32,
        sums: [u32; 3],
    }

    unsafe extern "C" {
        fn speed_draw(
            params: &[u32; 14],
            mask: u32,
            control: u32,
            top: u32,
            colours: &[u32; 3],
            position: u32,
            palette: &[u32; 256],
            store: &[u16; 512],
            memory: *const u8,
            memory_len: usize,
            buffer: *mut u8,
            buffer_len: usize,
        ) -> Shown;
    }

    // The proved call. Every file that this program makes runs, and is one that the calls can give from the beginning.
    #[inline(never)]
    pub fn draw(r: &super::Registers, memory: &[u8], buffer: &mut [u8]) -> Result<[u32; 3], u32> {
        let (m, b) = (memory, buffer);
        let shown = unsafe {
            speed_draw(
                &r.params,
                r.mask,
                r.control,
                r.top,
                &r.colours,
                r.position,
                &r.palette,
                &r.store,
                m.as_ptr(),
                m.len(),
                b.as_mut_ptr(),
                b.len(),
            )
        };
        if shown.refusal == 0 {
            Ok(shown.sums)
        } else {
            Err(shown.refusal)
        }
    }
}

// Small screens in every depth and mode, both ways: every byte and sum equal.
#[cfg(ours)]
fn compare(n: &mut Numbers, times: u32) {
    let mut shown = 0;
    for t in 0..times {
        let mut params = [8, 20, 256, 100, 100, 6, 6, 6, 60, 0, 320, 0, 0, 0];
        params[DISPLAY] = 16 * (1 + n.below(16));
        params[VDISPLAY] = 2 * (1 + n.below(100));
        params[MEMINIT] = 1 + n.below(600);
        params[TRANSFERDELAY] = 1 + n.below(18);
        let mut control = 1 | n.below(4) << 12 | n.below(4) << 20;
        if n.below(8) == 0 {
            control |= 0x400
        }
        if n.below(8) == 0 {
            control |= 0x4000
        }
        if n.below(4) == 0 {
            control |= 0x800000
        }
        let top = if n.below(8) == 0 { 0xffffff - n.below(4) } else { n.below(2000) };
        let position = (n.below(1200) + 4096 - 80) % 4096 << 12 | (n.below(180) + 4096 - 80) % 4096;
        let mask = n.below(0x1000000);
        let r = registers(n, params, mask, control, top, position);
        let (length, pixels) = (1 << n.below(22), (2 * params[DISPLAY] * params[VDISPLAY]) as usize);
        let memory: Vec<u8> = (0..length).map(|_| n.next() as u8).collect();
        let size = if n.below(16) == 0 { 3 * pixels + 1 } else { 3 * pixels };
        let (mut a, mut b) = (vec![0xaa; size], vec![0xaa; size]);
        let (plain, proved) = (draw(&r, &memory, &mut a), ours::draw(&r, &memory, &mut b));
        assert_eq!(plain, proved, "screen {t}: sums or refusal");
        // refused by 20, the plain program has drawn some rows, and the proved call none
        if plain.is_ok() {
            assert!(a == b, "screen {t}: bytes");
            shown += 1;
        }
    }
    println!("{times} screens: refusals and sums equal; {shown} were drawn, every byte equal");
}

// Increment 1,024 and top #FFFC00 on the bench screen: the second row is row 0, far inside, so only the first tells that a byte is missing.
#[cfg(ours)]
fn rolled(n: &mut Numbers) {
    let r = registers(n, [1, 3, 2, 1, 4, 1, 1, 1, 2, 4, 14, 0, 1, 1], 0xffffff, 0x303001, 0xfffc00, 0);
    let memory: Vec<u8> = (0..131072).map(|_| n.next() as u8).collect();
    for (length, refused) in [(131072, false), (131071, true)] {
        let (mut a, mut b) = (vec![0xaa; 48], vec![0xaa; 48]);
        let (plain, proved) = (draw(&r, &memory[..length], &mut a), ours::draw(&r, &memory[..length], &mut b));
        assert_eq!(plain, proved, "top #FFFC00, {length} bytes");
        assert_eq!(proved, if refused { Err(20) } else { plain });
        assert!(if refused { b == vec![0xaa; 48] } else { a == b }, "top #FFFC00, {length} bytes");
    }
    println!("top #FFFC00, increment 1,024: 131072 bytes are enough, 131071 get 20");
}

#[cfg(ours)]
fn timed(f: fn(&Registers, &[u8], &mut [u8]) -> Result<[u32; 3], u32>, r: &Registers, memory: &[u8], buffer: &mut [u8]) -> Duration {
    let began = Instant::now();
    let sums = f(black_box(r), black_box(memory), black_box(&mut *buffer));
    let took = began.elapsed();
    black_box((sums, buffer)).0.unwrap();
    took
}

fn main() {
    let times: usize = std::env::args().nth(1).map_or(200, |w| w.parse().expect("a number of repetitions"));
    let mut n = Numbers(364);
    let mut screen = |name, params, mask, control| (name, registers(&mut n, params, mask, control, 0, 500 << 12 | 300));
    let screens = [
        screen("8 bits", LARGE, 0xffffff, 0x300001),
        screen("8 bits, mask #F0FF0F", LARGE, 0xf0ff0f, 0x300001),
        screen("4 bits", LARGE, 0xffffff, 0x200001),
        screen("2 bits", LARGE, 0xffffff, 0x100001),
        screen("1 bit", LARGE, 0xffffff, 0x000001),
        screen("the chart's screen, cursor off", CHART, 0xffffff, 0x900001),
    ];
    let memory: Vec<u8> = (0..PIXELS).map(|_| n.next() as u8).collect();

    #[cfg(not(ours))]
    for (name, r) in &screens {
        let mut buffer = vec![0; bytes(r)];
        let mut best = f64::MAX;
        let mut sums = Ok([0; 3]);
        for _ in 0..times {
            let began = Instant::now();
            sums = draw(black_box(r), black_box(&memory), black_box(&mut buffer));
            best = best.min(began.elapsed().as_secs_f64());
        }
        println!("{name}: sums {:06x?}, least {:.3} ms", sums.unwrap(), 1e3 * best);
    }

    #[cfg(ours)]
    {
        compare(&mut n, 2000);
        rolled(&mut n);
        for (name, r) in &screens {
            let mut buffer = vec![0; bytes(r)];
            let mut same = vec![0xaa; bytes(r)];
            let sums = draw(r, &memory, &mut buffer);
            assert_eq!(sums, ours::draw(r, &memory, &mut same));
            assert!(buffer == same);
            // in turn, so that whatever else the machine does falls on both
            let mut plain = Vec::new();
            let mut proved = Vec::new();
            for _ in 0..times {
                plain.push(timed(draw, r, &memory, &mut buffer));
                proved.push(timed(ours::draw, r, &memory, &mut same));
            }
            plain.sort();
            proved.sort();
            println!("{name}: sums {:06x?}, every byte and sum equal", sums.unwrap());
            for (name, k) in [("least", 0), ("median", times / 2)] {
                let (a, b) = (1e3 * plain[k].as_secs_f64(), 1e3 * proved[k].as_secs_f64());
                println!("    {name:6}  plain {a:.3} ms   proved {b:.3} ms   proved / plain {:.2}", b / a);
            }
        }
    }
}
