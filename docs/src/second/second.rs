// The second program: an independent machine of document 01 with the interlaced
// screens of document 02, Q-4, driven by the bench script of docs/SCRIPT.md.
//
// Build:   rustc --edition 2021 -O -o second second.rs
// Use:     second < script          answers as `bench` gives them
//          second sheet < sheet     the sheet program of document 01,
//                                   "Screen sheet": four lines, or `refused N`
//
// It was written from the papers alone: document 01, Q-4 of document 02,
// docs/SCRIPT.md, and, for the bit senses and depth codes of control A, document
// 000. Standard library only.
// It goes tick by tick and works nothing out ahead, so that it can be checked
// against the paper by reading.
//
//   machine.rs   registers, refusals, starting, the tick, the whole picture
//   sheet.rs     the screen sheet and the nine-byte comparison
//   script.rs    the script language
//
// ---------------------------------------------------------------------------
// Readings settled for this build
// ---------------------------------------------------------------------------
//
//  S1. Addresses and values are 32-bit numbers; every address outside the map
//      gets 2.
//  S2. Refusal 4 looks at bits 3, 11, 15 to 19 and 22 of any control write, also
//      one with bit 0 clear; bit 1 stands under I1.
//  S3. Stopping changes the control alone: position and sums stay, and the
//      checksums can be read. Starting resets every generator field.
//  S4. A control write that leaves bit 0 set is checked for 10 to 18 as the new
//      value stands, and does not restart.
//  S5. Refusal 5: running, and the next tick lies in VDisplay, of either field.
//  S6. Forced blank leaves a tick visible in the count v: v, held address,
//      request and answered addresses go on; nothing is read or summed; a picture
//      gets black.
//  S7. Transfers off: the pixel is 0, palette entry 0 shows, the cursor lies on
//      top, the colours are summed; nothing is read, so there is no 20; top is
//      taken up and addresses advance unseen.
//  S8. Between lines the request is the value answered at the visible tick
//      before, and low now if transfers are off now.
//  S9. The step to the next address uses the increment in force at that transfer;
//      the row number uses the increment in force at each tick.
// S10. A tick refused by 20 takes nothing up, clears nothing, advances nothing.
// S11. Full lines count from VBlank's first half line, whatever the parity of the
//      first three periods; interlaced, see I4.
// S12. A whole picture is given in every mode.
//
// Interlaced screens (document 02, Q-4)
//
//  I1. Bit 1 of the control is interlaced. It gets 4 where the generator runs, the
//      new value keeps bit 0 set and bit 1 changes; a write that stops may change
//      it, and so may any write while stopped. 10 to 18 are checked of the new
//      value. Bit 2 stays without effect.
//  I2. By bits 13,12 the increments are 1, 2, 512, 1,024 and the second field's
//      offsets 1, 1, 256, 512. The row number is the held address divided by the
//      offset, as the control stands at each tick.
//  I3. A frame is two fields of five periods each. A start, a whole picture and 22
//      speak of the frame's start, half line 0; the second field's start is none.
//  I4. Half lines are numbered through the frame. In VBlank and VDisplay an even
//      one is the first half of a line and an odd one the second, wherever the
//      periods begin; a leading or closing half stands alone.
//  I5. Top is taken up and the sums are cleared at each field's first VDisplay tick,
//      as the register stands then; the second field begins at top plus offset,
//      modulo 2^24, with the offset as the control stands then. That tick may be
//      visible: it takes up, clears, transfers, shows and adds, in that order.
//  I6. v begins at 0 in each field. Before the first visible tick of a field the
//      request is high where one of the field's next TransferDelay ticks is
//      visible, in VBlank too; after its last visible tick it is low.
//  I7. A field may show nothing: it then has no transfer and no request, and still
//      takes top up and clears the sums.
//  I8. The cursor's columns count from the line's Display start, its rows count the
//      field's lines; a leading half is row 0. Both fields have a row 0.
//  I9. A whole picture holds the first field's visible pixels and then the second's,
//      12 x Display x VDisplay bytes in all, and leaves the machine as the ticks do.
// I10. 16 is for screens that are not interlaced; 18, after 17, for those that are.
//
// ---------------------------------------------------------------------------
// Readings chosen here, each with its reason
// ---------------------------------------------------------------------------
//
// Machine
//
//  M1. "The increment in force at that transfer" (S9): the transfer at v = k R
//      happens from the last address plus the increment that the control holds at
//      that very tick. Reason: document 01 says from where a transfer happens,
//      "the last address plus the increment", and changes act from the next tick,
//      so the increment is the one that stands when that transfer happens, not
//      the one that stood at the transfer before.
//  M2. Pixel places after the increment was changed in mid-frame, or after an
//      address rolled over: the place is row x R x 4 + 4 x (v mod R), the row
//      taken from the held address at each tick. Reason: the row rule stands for
//      every tick, with "the current increment"; the sentence "A frame's picture
//      places are the pixels from its first row's first one on, four to a visible
//      tick" says the same wherever rows follow one another, and cannot hold
//      beside the row rule where they do not.
//  M3. An accepted whole picture leaves the machine one frame on, at the next
//      frame start, with the sums of the frame just shown. Reason: refusal 22
//      binds a picture to a frame start, and the checksums are there to be
//      compared after a picture was shown.
//  M4. A change of depth, mask, palette, cursor colours, cursor position or
//      cursor store acts from the next tick, in mid-frame too. Reason: "Changes
//      act from the next tick"; document 001's "valid at the next frame scan" for
//      the cursor gives way, for document 01 decides. After a change of depth,
//      places are still counted in pixels, now of the new depth.
//  M5. The mask and the palette do not touch cursor colours, and the cursor is
//      black in blank ticks. Reason: 00 of the cursor lets the pixel through, and
//      01 to 11 "are cursor colours 1, 2, 3"; "a blank tick puts out four black
//      pixels".
//  M6. A forced-blank tick answers blank high, and its request and address as
//      ever. Reason: S6, and the request's rule names visible ticks and not
//      unblanked ones.
//  M7. The held bits 2 and 5 to 9 of control A read back as written. Reason:
//      "held".
//  M8. A tick is read as a whole: if one of its four pixels ends beyond the
//      memory the tick is refused, and its colours before that one are not
//      summed. Reason: S10.
//  M9. The boot location #000, #070 and the gaps of the map are reserved.
//      Reason: the map does not hold them.
// M10. Limits of documents 000 and 001 that refusals 10 to 18 do not name (all
//      parameters above 1, Display ending past half a line, BackPorch above 16,
//      the cursor's offset under a short BackPorch) are not checked and have no
//      effect. Reason: each refusal is given "exactly when" its row says so.
//
// Script language
//
//  L1. `sheet` answers one line: `ok` and the fourteen values, parted by single
//      spaces. `picture` and `store` answer `ok` on a line of its own, and the
//      bytes on the lines after it. Reason: "`ok` and the values" against "`ok`,
//      then its bytes ..., 32 a line".
//  L2. A line of blanks alone is not empty: it has no command's name and is
//      `unknown command`. So is a line that begins with a blank and then `;`.
//      Reason: "empty", and "whose first character is `;`", to the letter.
//  L3. A CR at the very end of a script, with no LF after it, belongs to its
//      line. Reason: line ends are LF or CR LF; the last line lacks its end, so
//      the CR is a character like others. The same holds for a CR that stands
//      before the CR of a CR LF.
//  L4. A remark of more than 1,000 bytes is `too long`. Reason: "whatever it
//      holds".
//  L5. Command names are in small letters only. Reason: "in either case of
//      letters" is said of numbers.
//  L6. A number has no sign, and `#` alone is none. A word with a character that
//      is no digit is `not a number`, however long; size is judged after that.
//  L7. A byte over 255 is `number too large` in every command that takes bytes.
//      AT, COUNT, START, STEP, TAG and VALUE may be any number.
//  L8. "The rest" that is checked last is `too large` and `beyond the memory`: so
//      a later word that is no number is found before a ROOM over 80.
//  L9. `fill` is `beyond the memory` when AT + COUNT is over the memory's length,
//      also with a COUNT of 0. Reason: the bytes from AT on must lie in the
//      memory; where AT itself lies past the end there is no such place.
// L10. Only the first `/` of a `compare` parts it; a second one is a word that is
//      not a number. A `compare` with no `/` has too few words, however many it
//      has.
// L11. A fault of the line comes before any refusal: `picture 3145729` while
//      stopped is `too large`. Reason: such a line is no command.
// L12. `tick 0` answers nothing and `run 0` answers `ran 0`, also while stopped.
//      Reason: no tick was asked. `run` of 1 or more while stopped answers
//      `ran 0`, then `refused 23`.
// L13. `memory` may be given at any time; the memory lent is the one at each tick.
// L14. `too long` is a REASON like the seven listed, and comes before all others.

mod machine;
mod script;
mod sheet;

use machine::{Machine, Refusal, CONTROL_A, FIRST_PARAMETER, PARAMETERS};
use std::io::{self, BufWriter, Read, Write};
use std::process::ExitCode;

fn main() -> ExitCode {
    let mut input = io::stdin().lock();
    let mut out = BufWriter::with_capacity(1 << 16, io::stdout().lock());
    let mut arguments = std::env::args_os().skip(1);
    let done = match (arguments.next(), arguments.next()) {
        (None, _) => script::run(&mut input, &mut out),
        (Some(word), None) if word == "sheet" => sheet_program(&mut input, &mut out),
        _ => {
            let _ = writeln!(io::stderr(), "use: second < script, or second sheet < sheet");
            return ExitCode::from(2);
        }
    };
    // An input that cannot be read or an output that cannot be written ends the
    // program; nothing more can be said on it.
    match done.and_then(|()| out.flush()) {
        Ok(()) => ExitCode::SUCCESS,
        Err(_) => ExitCode::from(1),
    }
}

/// What the sheet program counts in one frame.
struct Totals {
    ticks: u64,
    visible: u64,
    transfers: u64,
}

/// Document 01, "Screen sheet": reads one sheet on standard input, taking 8 bits,
/// increment 1, transfers on, and prints `refused N` or four lines.
fn sheet_program(input: &mut impl Read, out: &mut impl Write) -> io::Result<()> {
    // One byte more than a sheet is enough to know that bytes are left over.
    let mut bytes = Vec::new();
    input.take(sheet::SHEET_LENGTH as u64 + 1).read_to_end(&mut bytes)?;
    match sheet::read_sheet(&bytes).and_then(|values| count_a_frame(&values)) {
        Ok(totals) => {
            writeln!(out, "ticks {}", totals.ticks)?;
            writeln!(out, "visible {}", totals.visible)?;
            writeln!(out, "transfers {}", totals.transfers)?;
            writeln!(out, "pixels {}", 4 * totals.visible)
        }
        Err(refusal) => writeln!(out, "refused {refusal}"),
    }
}

/// Starts a screen and ticks one frame of it.
fn count_a_frame(values: &[u32; PARAMETERS]) -> Result<Totals, Refusal> {
    // Bit 0 runs; bits 21 and 20 are 8 bits a pixel; bits 13 and 12 clear are
    // increment 1; bit 14 clear is transfers on.
    const RUN_AT_8_BITS: u32 = 0x30_0001;
    let mut machine = Machine::new();
    for (number, &value) in values.iter().enumerate() {
        machine.write(FIRST_PARAMETER + number as u32, value)?;
    }
    machine.write(CONTROL_A, RUN_AT_8_BITS)?;
    // At 8 bits, increment 1 and top 0 a frame reads one byte for each visible
    // pixel, from byte 0 on.
    let memory = vec![0; machine.visible_pixels() as usize];
    let mut totals = Totals { ticks: 0, visible: 0, transfers: 0 };
    loop {
        let signals = machine.tick(&memory)?;
        totals.ticks += 1;
        totals.visible += u64::from(signals.visible);
        totals.transfers += u64::from(signals.address.is_some());
        if machine.at_a_frame_start() {
            return Ok(totals);
        }
    }
}
