// Input that is no script, or a spoilt one: whatever it holds, both programs end and
// give the same answers. Ten kinds, by the seed's last digit.

use crate::Chance;

/// Words of the language, for lines that nearly are commands: names, and what may follow
/// them. No number is large, so that no tick or run is too long to wait for.
const NAMES: [&[u8]; 13] = [
    b"write", b"read", b"memory", b"poke", b"fill", b"tick", b"run", b"picture", b"nine", b"sheet",
    b"field", b"store", b"compare",
];
const OTHERS: [&[u8]; 15] = [
    b"/", b"#060", b"#021", b"1", b"0", b"255", b"256", b"14", b"#0C0", b"x", b";", b"#", b"48", b"3",
    b"70",
];

pub fn script(seed: u64) -> Vec<u8> {
    let mut c = Chance(seed);
    match seed % 10 {
        0 => (0..c.below(60_000)).map(|_| c.below(256) as u8).collect(),
        1 => letters(&mut c),
        2 => words(&mut c),
        3 => {
            // A good script cut anywhere.
            let mut out = crate::script(seed, 60, 20_000);
            let length = c.below(out.len() as u64 + 1) as usize;
            out.truncate(length);
            out
        }
        4 => changed(&mut c, crate::script(seed, 60, 20_000)),
        5 => {
            // One line of a million characters, and a command after it.
            let character = c.one_of(b"x0; \t\r\0\xFF");
            let mut out = b"read #".to_vec();
            out.truncate(6 * c.below(2) as usize);
            out.resize(1_000_000 + c.below(3) as usize, character);
            out.extend_from_slice(c.one_of::<&[u8]>(&[b"\nnine\n", b"\r\nnine", b"40", b""]));
            out
        }
        6 => {
            // Megabytes of empty lines, and a line that tells their number.
            let end = c.one_of::<&[u8]>(&[b"\n", b"\r\n"]);
            let mut out = end.repeat(1_000_000 + c.below(1_000_000) as usize);
            out.extend_from_slice(b"x");
            out
        }
        7 => no_characters(&mut c),
        8 => {
            // Nothing, and hardly anything.
            let kinds: [&[u8]; 12] = [
                b"", b"\n", b"\r", b"\r\n", b"\n\r", b"nine", b"nine\r", b"\0", b";", b" ", b"\xFF",
                b"\n\n\nx",
            ];
            kinds[(seed / 10 % 12) as usize].to_vec()
        }
        _ => long_lines(&mut c),
    }
}

/// Characters of the language in no order.
fn letters(c: &mut Chance) -> Vec<u8> {
    let characters = b"writeadmoypkflcunhsgv  #0123456789ABCDEF/;\n\n\n\r\t";
    (0..c.below(60_000)).map(|_| c.one_of(characters)).collect()
}

/// Words of the language in no order; and lines with as many words as a line can hold.
fn words(c: &mut Chance) -> Vec<u8> {
    let mut out = Vec::new();
    for _ in 0..c.below(4_000) {
        if c.in_a_hundred(5) {
            out.extend_from_slice(c.one_of(&NAMES));
            let slashes = c.below(3);
            for _ in 0..c.below(520) {
                out.push(c.one_of(b"   \t"));
                out.push(if c.in_a_hundred(slashes) { b'/' } else { c.one_of(b"0123456789") });
            }
        } else {
            for _ in 0..c.below(7) {
                let name = c.in_a_hundred(40);
                out.extend_from_slice(if name { c.one_of(&NAMES) } else { c.one_of(&OTHERS) });
                out.push(c.one_of(b"   \t"));
            }
        }
        out.extend_from_slice(c.one_of::<&[u8]>(&[b"\n", b"\n", b"\r\n", b"\n\n", b"\r"]));
    }
    out
}

/// A good script with some of its bytes changed.
fn changed(c: &mut Chance, mut out: Vec<u8>) -> Vec<u8> {
    for _ in 0..1 + c.below(40) {
        let at = c.below(out.len() as u64) as usize;
        if let Some(byte) = out.get_mut(at) {
            *byte = match c.below(3) {
                0 => c.below(256) as u8,
                1 => c.one_of(b" \t\n\r#/;\0"),
                _ => *byte ^ (1 << c.below(8)),
            };
        }
    }
    out
}

/// Zero bytes in lines, between lines, and instead of them.
fn no_characters(c: &mut Chance) -> Vec<u8> {
    let mut out = Vec::new();
    for _ in 0..c.below(2_000) {
        let line = c.one_of::<&[u8]>(&[b"nine", b"read #060", b"", b";", b"tick 0", b"run 0", b"\0"]);
        let at = c.below(line.len() as u64 + 1) as usize;
        out.extend_from_slice(&line[..at]);
        if c.in_a_hundred(60) {
            out.resize(out.len() + c.one_of(&[1, 1, 2, 999, 1_000, 1_001, 3_000]), 0);
        }
        out.extend_from_slice(&line[at..]);
        out.push(c.one_of(b"\n\n\n\0"));
    }
    out
}

/// Lines about the longest allowed, so that a reader's buffer ends at every place of one.
fn long_lines(c: &mut Chance) -> Vec<u8> {
    let mut out = Vec::new();
    for _ in 0..200 + c.below(400) {
        let length = 985 + c.below(30) as usize;
        let mut line = b"read #".to_vec();
        line.resize(length, b'0');
        line.extend_from_slice(c.one_of::<&[u8]>(&[b"40", b"40", b"60", b"x", b"\r"]));
        out.extend_from_slice(&line);
        out.extend_from_slice(c.one_of::<&[u8]>(&[b"\n", b"\r\n", b"\r\r\n", b"\n\n", b"\n\r\n"]));
    }
    out
}
