// The machine of document 01 with the interlaced screens of document 02, Q-4:
// registers, refusals, starting, ticks, rows, pixels, cursor, checksums and the
// whole picture.
//
// It is written to be read beside the paper. Nothing is worked out ahead of
// time: every tick looks at the registers as they stand, and the state moves on
// by one tick at the end of `tick`, or not at all.

/// A refusal, by its number in document 01, "Refusal numbers".
pub type Refusal = u32;

// ---------------------------------------------------------------------------
// Document 01, "Register map".
// ---------------------------------------------------------------------------

/// Addresses #021 to #02E; the fourteen screen parameters in register order.
pub const FIRST_PARAMETER: u32 = 0x021;
pub const LAST_PARAMETER: u32 = 0x02E;
pub const PARAMETERS: usize = 14;

// Places of the parameters in register order.
const HALF_SYNC: usize = 0;
const BACK_PORCH: usize = 1;
const DISPLAY: usize = 2;
const SHORT_DISPLAY: usize = 3;
const BROAD_PULSE: usize = 4;
const V_SYNC: usize = 5;
const V_PRE_EQUALISE: usize = 6;
const V_POST_EQUALISE: usize = 7;
const V_BLANK: usize = 8;
const V_DISPLAY: usize = 9;
const LINE_TIME: usize = 10;
const LINE_START: usize = 11;
const MEM_INIT: usize = 12;
const TRANSFER_DELAY: usize = 13;

pub const MASK: u32 = 0x040;
pub const CONTROL_A: u32 = 0x060;
pub const TOP_OF_SCREEN: u32 = 0x080;
pub const FIRST_CURSOR_COLOUR: u32 = 0x0A1;
pub const LAST_CURSOR_COLOUR: u32 = 0x0A3;
pub const FIRST_CHECKSUM: u32 = 0x0C0;
pub const LAST_CHECKSUM: u32 = 0x0C2;
pub const CURSOR_POSITION: u32 = 0x0C7;
pub const FIRST_PALETTE: u32 = 0x100;
pub const LAST_PALETTE: u32 = 0x1FF;
pub const FIRST_CURSOR_STORE: u32 = 0x200;
pub const LAST_CURSOR_STORE: u32 = 0x3FF;

/// The greatest value of a register, and of a word of the cursor store.
const GREATEST: u32 = 0xFF_FFFF;
const GREATEST_IN_CURSOR_STORE: u32 = 0xFFFF;

/// What an address holds. An address that holds nothing is reserved.
#[derive(Clone, Copy)]
enum Register {
    Parameter(usize),
    Mask,
    ControlA,
    TopOfScreen,
    CursorColour(usize),
    Checksum(u32),
    CursorPosition,
    Palette(usize),
    CursorStore(usize),
}

/// Document 01, "Register map". Every address outside the map, #070 and the
/// boot location #000 among them, is reserved.
fn register_at(address: u32) -> Option<Register> {
    match address {
        FIRST_PARAMETER..=LAST_PARAMETER => {
            Some(Register::Parameter((address - FIRST_PARAMETER) as usize))
        }
        MASK => Some(Register::Mask),
        CONTROL_A => Some(Register::ControlA),
        TOP_OF_SCREEN => Some(Register::TopOfScreen),
        FIRST_CURSOR_COLOUR..=LAST_CURSOR_COLOUR => {
            Some(Register::CursorColour((address - FIRST_CURSOR_COLOUR) as usize))
        }
        FIRST_CHECKSUM..=LAST_CHECKSUM => Some(Register::Checksum(address - FIRST_CHECKSUM)),
        CURSOR_POSITION => Some(Register::CursorPosition),
        FIRST_PALETTE..=LAST_PALETTE => {
            Some(Register::Palette((address - FIRST_PALETTE) as usize))
        }
        FIRST_CURSOR_STORE..=LAST_CURSOR_STORE => {
            Some(Register::CursorStore((address - FIRST_CURSOR_STORE) as usize))
        }
        _ => None,
    }
}

// ---------------------------------------------------------------------------
// Control A. Document 01, "Register map", last paragraph; the senses of bits 14
// and 23 and the depth codes are those of document 000, table 8.1 and section
// 8.11.3 (non-interleaved).
// ---------------------------------------------------------------------------

/// Bit 0: 1 runs the generator.
fn runs(control: u32) -> bool {
    bit(control, 0)
}

/// Bit 1: 1 is interlaced, a frame of two fields (02, Q-4).
fn interlaced(control: u32) -> bool {
    bit(control, 1)
}

/// Bit 4: 1 is plain flyback sync, 0 tesselated.
fn plain_sync(control: u32) -> bool {
    bit(control, 4)
}

/// Bit 10: 1 forces blanking.
fn forces_blanking(control: u32) -> bool {
    bit(control, 10)
}

/// Bits 13 and 12: the address increment. Document 01, "Register map"; of an
/// interlaced screen, and the second field's offset, document 02, Q-4.
const INCREMENTS: [u32; 4] = [1, 256, 512, 1024];
const INTERLACED_INCREMENTS: [u32; 4] = [1, 2, 512, 1024];
const SECOND_FIELD_OFFSETS: [u32; 4] = [1, 1, 256, 512];

fn increment_code(control: u32) -> usize {
    ((control >> 12) & 3) as usize
}

fn increment(control: u32) -> u32 {
    if interlaced(control) {
        INTERLACED_INCREMENTS[increment_code(control)]
    } else {
        INCREMENTS[increment_code(control)]
    }
}

fn second_field_offset(control: u32) -> u32 {
    SECOND_FIELD_OFFSETS[increment_code(control)]
}

/// What the held address is divided by to give the row number.
fn address_of_a_row(control: u32) -> u32 {
    if interlaced(control) {
        second_field_offset(control)
    } else {
        increment(control)
    }
}

/// Bit 14, "Turn off DMA": 0 is transfers on, 1 is transfers off (000, table 8.1).
fn transfers_on(control: u32) -> bool {
    !bit(control, 14)
}

/// Bits 22 to 20, "Bits per pixel": 000 is 1, 001 is 2, 010 is 4, 011 is 8
/// (000, section 8.11.3). Bit 22 is never 1 in an accepted control value.
const DEPTHS: [u32; 4] = [1, 2, 4, 8];

/// The shift period in screen units for 1, 2, 4 and 8 bits. Document 01,
/// "Starting a screen".
const SHIFT_PERIODS: [u32; 4] = [16, 8, 4, 2];

fn depth_code(control: u32) -> usize {
    ((control >> 20) & 3) as usize
}

/// Bit 23, "Cursor disable": 0 is cursor shown, 1 is cursor off (000, table 8.1).
fn cursor_on(control: u32) -> bool {
    !bit(control, 23)
}

/// The bits whose 1 gets refusal 4: those that document 01 names neither as
/// having an effect nor as held without effect, and bit 22, whose 1 is another
/// depth in every case.
const BITS_NOT_IN_THE_BUILD: [u32; 8] = [3, 11, 15, 16, 17, 18, 19, 22];

fn not_in_the_build(control: u32) -> bool {
    BITS_NOT_IN_THE_BUILD.iter().any(|&number| bit(control, number))
}

fn bit(value: u32, number: u32) -> bool {
    (value >> number) & 1 == 1
}

// ---------------------------------------------------------------------------
// State.
// ---------------------------------------------------------------------------

/// The five periods of a field, in their order. Document 01, "Lines and frames". A
/// frame is one field; of an interlaced screen, two.
#[derive(Clone, Copy, PartialEq, Eq)]
enum Period {
    PreEqualise,
    VSync,
    PostEqualise,
    VBlank,
    VDisplay,
}

/// A tick's place in the frame.
#[derive(Clone, Copy)]
struct Place {
    in_second_field: bool,
    period: Period,
    /// The half line, from 0: of the period, and of the frame.
    half_line: u32,
    half_line_of_frame: u32,
    /// The screen unit of that half line, from 0.
    unit: u32,
    /// The line of the field's VDisplay, from 0; a leading half is line 0.
    line: u32,
}

/// Before the first tick of PreEqualise. Document 01, "Starting a screen".
const FRAME_START: Place = Place {
    in_second_field: false,
    period: Period::PreEqualise,
    half_line: 0,
    half_line_of_frame: 0,
    unit: 0,
    line: 0,
};

/// Where the generator stands, and what it carries from tick to tick.
#[derive(Clone, Copy)]
struct Generator {
    /// Where the next tick lies.
    place: Place,
    /// v: how many visible ticks of this field are past. Document 01, "Rows and
    /// pixels": only visible ticks count.
    v: u32,
    /// Where this field's rows begin, as taken up at its first VDisplay tick.
    top_taken_up: u32,
    /// The address of the last transfer.
    held_address: u32,
    /// The request answered at the last visible tick.
    last_request: bool,
}

const AT_THE_START: Generator = Generator {
    place: FRAME_START,
    v: 0,
    top_taken_up: 0,
    held_address: 0,
    last_request: false,
};

/// The whole machine. The picture memory is no part of it: it is lent.
#[derive(Clone)]
pub struct Machine {
    parameters: [u32; PARAMETERS],
    mask: u32,
    control: u32,
    top_of_screen: u32,
    cursor_colours: [u32; 3],
    cursor_position: u32,
    palette: [u32; 256],
    cursor_store: [u32; 512],
    generator: Generator,
    /// The 24-bit sums of red, green and blue.
    sums: [u32; 3],
}

/// Every signal of one tick. Document 01, "Lines and frames" and "Rows and pixels".
pub struct Signals {
    /// Composite sync: true is high.
    pub sync: bool,
    /// Vertical sync: true is high.
    pub vertical_sync: bool,
    /// FrameInactive: true is high.
    pub frame_inactive: bool,
    pub blank: bool,
    pub request: bool,
    /// The transfer's address, where one is answered.
    pub address: Option<u32>,
    /// The four pixels' colours, red in bits 23 to 16, green, blue.
    pub colours: [u32; 4],
    /// Whether this was a visible tick: a Display tick inside VDisplay, forced
    /// blank or not.
    pub visible: bool,
}

impl Machine {
    /// Document 01, "Register map": all registers begin at 0 and the generator
    /// stopped.
    pub fn new() -> Machine {
        Machine {
            parameters: [0; PARAMETERS],
            mask: 0,
            control: 0,
            top_of_screen: 0,
            cursor_colours: [0; 3],
            cursor_position: 0,
            palette: [0; 256],
            cursor_store: [0; 512],
            generator: AT_THE_START,
            sums: [0; 3],
        }
    }

    fn running(&self) -> bool {
        runs(self.control)
    }

    /// Whether the next tick is the first of a frame.
    pub fn at_a_frame_start(&self) -> bool {
        let place = &self.generator.place;
        !place.in_second_field && starts_a_field(place)
    }

    // -----------------------------------------------------------------------
    // Register writes and reads. Document 01, "Refusal numbers".
    // -----------------------------------------------------------------------

    /// Order for a write: 2, 1, 3, 4, then 10 to 18. A refused write returns
    /// before anything is changed.
    pub fn write(&mut self, address: u32, value: u32) -> Result<(), Refusal> {
        // 2: reserved address, or a checksum written.
        let register = match register_at(address) {
            None | Some(Register::Checksum(_)) => return Err(2),
            Some(register) => register,
        };
        // 1: value over #FFFFFF, or over #FFFF for the cursor store.
        let greatest = match register {
            Register::CursorStore(_) => GREATEST_IN_CURSOR_STORE,
            _ => GREATEST,
        };
        if value > greatest {
            return Err(1);
        }
        match register {
            Register::Parameter(number) => {
                // 3: #021 to #02E touched while running.
                if self.running() {
                    return Err(3);
                }
                self.parameters[number] = value;
            }
            Register::ControlA => self.write_control(value)?,
            Register::Mask => self.mask = value,
            Register::TopOfScreen => self.top_of_screen = value,
            Register::CursorColour(number) => self.cursor_colours[number] = value,
            Register::CursorPosition => self.cursor_position = value,
            Register::Palette(number) => self.palette[number] = value,
            Register::CursorStore(number) => self.cursor_store[number] = value,
            // Refused above.
            Register::Checksum(_) => return Err(2),
        }
        Ok(())
    }

    /// Document 01, "Starting a screen".
    fn write_control(&mut self, value: u32) -> Result<(), Refusal> {
        // 4: control mode not in the build; with bit 0 set or clear.
        if not_in_the_build(value) {
            return Err(4);
        }
        // 4: bit 1 changed while running, by a write that does not stop.
        if self.running() && runs(value) && interlaced(value) != interlaced(self.control) {
            return Err(4);
        }
        // With bit 0 set: 10 to 18, as the new value stands, running or not.
        if runs(value) {
            self.check_screen(value)?;
        }
        // Going from 0 to 1 puts the generator before the first tick of
        // PreEqualise and zeroes the checksums. Going to 0 stops it, and changes
        // nothing but the control.
        if runs(value) && !self.running() {
            self.generator = AT_THE_START;
            self.sums = [0; 3];
        }
        self.control = value;
        Ok(())
    }

    /// Refusals 10 to 18, lowest number first, for the screen parameters as they
    /// stand under the control value given.
    fn check_screen(&self, control: u32) -> Result<(), Refusal> {
        let p = &self.parameters;
        // 10: a screen parameter other than LineStart is 0 or over 4,095.
        for number in 0..PARAMETERS {
            if number != LINE_START && (p[number] == 0 || p[number] > 4095) {
                return Err(10);
            }
        }
        // From here on no sum below can pass 2^32.
        let blanked = 2 * p[HALF_SYNC] + p[BACK_PORCH];
        // 11: LineTime odd.
        if p[LINE_TIME] % 2 != 0 {
            return Err(11);
        }
        let half_line = p[LINE_TIME] / 2;
        // 12: LineTime not above 2 HalfSync + BackPorch + Display.
        if !(p[LINE_TIME] > blanked + p[DISPLAY]) {
            return Err(12);
        }
        // 13: 2 HalfSync + BackPorch + ShortDisplay not below LineTime/2.
        if !(blanked + p[SHORT_DISPLAY] < half_line) {
            return Err(13);
        }
        // 14: BroadPulse not below LineTime/2.
        if !(p[BROAD_PULSE] < half_line) {
            return Err(14);
        }
        // 15: Display not a multiple of the shift period.
        if p[DISPLAY] % SHIFT_PERIODS[depth_code(control)] != 0 {
            return Err(15);
        }
        // 16: VDisplay or VBlank odd, of a screen that is not interlaced.
        if !interlaced(control) && (p[V_DISPLAY] % 2 != 0 || p[V_BLANK] % 2 != 0) {
            return Err(16);
        }
        // 17: TransferDelay not below BackPorch - 1, or above ShortDisplay.
        // (BackPorch is at least 1 here.)
        if !(p[TRANSFER_DELAY] < p[BACK_PORCH] - 1) || p[TRANSFER_DELAY] > p[SHORT_DISPLAY] {
            return Err(17);
        }
        // 18: VDisplay or the sum of the five counts even, of an interlaced screen.
        let half_lines =
            p[V_PRE_EQUALISE] + p[V_SYNC] + p[V_POST_EQUALISE] + p[V_BLANK] + p[V_DISPLAY];
        if interlaced(control) && (p[V_DISPLAY] % 2 == 0 || half_lines % 2 == 0) {
            return Err(18);
        }
        Ok(())
    }

    /// Order for a read: 2, 3, 5.
    pub fn read(&self, address: u32) -> Result<u32, Refusal> {
        // 2: reserved address.
        let register = match register_at(address) {
            None => return Err(2),
            Some(register) => register,
        };
        match register {
            Register::Parameter(number) => {
                // 3: #021 to #02E touched while running.
                if self.running() {
                    return Err(3);
                }
                Ok(self.parameters[number])
            }
            Register::Checksum(number) => {
                // 5: checksum read while running, the next tick not in flyback,
                // that is, in VDisplay of either field.
                if self.running() && self.generator.place.period == Period::VDisplay {
                    return Err(5);
                }
                Ok(self.checksum(number))
            }
            Register::Mask => Ok(self.mask),
            Register::ControlA => Ok(self.control),
            Register::TopOfScreen => Ok(self.top_of_screen),
            Register::CursorColour(number) => Ok(self.cursor_colours[number]),
            Register::CursorPosition => Ok(self.cursor_position),
            Register::Palette(number) => Ok(self.palette[number]),
            Register::CursorStore(number) => Ok(self.cursor_store[number]),
        }
    }

    /// Document 01, "Rows and pixels", last paragraph: #0C0 holds the three low
    /// bytes of the sums, #0C1 the middle, #0C2 the high ones, red leftmost.
    fn checksum(&self, number: u32) -> u32 {
        let [red, green, blue] = self.sums.map(|sum| (sum >> (8 * number)) & 0xFF);
        (red << 16) | (green << 8) | blue
    }

    // -----------------------------------------------------------------------
    // The tick. Document 01, "Lines and frames" and "Rows and pixels".
    // -----------------------------------------------------------------------

    /// One tick: every signal answered, and the machine moved on by one tick.
    /// Order: 23, 20. A refused tick changes nothing: all that a tick changes is
    /// gathered in `after` and `sums`, and put in place by the last lines only.
    pub fn tick(&mut self, memory: &[u8]) -> Result<Signals, Refusal> {
        // 23: tick asked while stopped.
        if !self.running() {
            return Err(23);
        }

        let p = &self.parameters;
        let control = self.control;
        let place = self.generator.place;
        let period = place.period;
        let mut after = self.generator;
        let mut sums = self.sums;

        // Sync is low: in full lines, for the first 2 HalfSync ticks; tesselated,
        // for the first HalfSync ticks of an equalise cycle and the first
        // BroadPulse ticks of a VSync cycle; plain, throughout VSync and never in
        // equalisation.
        let plain = plain_sync(control);
        let sync_low = match period {
            Period::PreEqualise | Period::PostEqualise => !plain && place.unit < p[HALF_SYNC],
            Period::VSync => plain || place.unit < p[BROAD_PULSE],
            Period::VBlank | Period::VDisplay => self.unit_of_line(&place) < 2 * p[HALF_SYNC],
        };
        // Vertical sync is low exactly in VSync; FrameInactive is high in all but
        // VDisplay.
        let vertical_sync = period != Period::VSync;
        let frame_inactive = period != Period::VDisplay;

        let visible = self.is_visible(&place);
        let forced_blank = forces_blanking(control);
        // A tick is blank unless visible and not forced blank.
        let blank = !(visible && !forced_blank);

        // A field's first VDisplay tick takes up the top of screen and clears the
        // sums; the second field begins at top plus offset, modulo 2^24. It may be
        // a visible tick too, whose pixels are added after that.
        if period == Period::VDisplay && place.half_line == 0 && place.unit == 0 {
            after.top_taken_up = if place.in_second_field {
                (self.top_of_screen + second_field_offset(control)) & GREATEST
            } else {
                self.top_of_screen
            };
            sums = [0; 3];
        }

        // R, the row length.
        let row_length = p[MEM_INIT] + p[TRANSFER_DELAY];

        let request;
        let mut address = None;
        // A blank tick puts out four black pixels.
        let mut colours = [0; 4];

        if visible {
            let v = after.v;
            let place_in_row = v % row_length;

            // A transfer happens at v when v is a multiple of R: first from top,
            // then from the last address plus the increment, modulo 2^24; only
            // then is an address answered. With transfers off the addresses
            // advance unseen.
            if place_in_row == 0 {
                after.held_address = if v == 0 {
                    after.top_taken_up
                } else {
                    (after.held_address + increment(control)) & GREATEST
                };
                if transfers_on(control) {
                    address = Some(after.held_address);
                }
            }

            // The request is high at v where v mod R is at least MemInit.
            request = transfers_on(control) && place_in_row >= p[MEM_INIT];
            after.last_request = request;

            // Forced-blank ticks read nothing, show black, and are not summed.
            if !forced_blank {
                // Row number is the held address divided by the current
                // increment, interlaced by the offset, rounded down; its first
                // pixel stands row x R x 4 pixels from the beginning.
                let row = u64::from(after.held_address / address_of_a_row(control));
                let first_pixel =
                    row * u64::from(row_length) * 4 + u64::from(place_in_row) * 4;
                // The tick's pixels on the screen: columns count from the line's
                // Display start, rows are lines of the field.
                let screen_x = 4 * (self.unit_of_line(&place) - self.display_begins());
                let screen_y = place.line;

                for (number, colour) in colours.iter_mut().enumerate() {
                    // With transfers off every pixel is 0 and nothing is read. A
                    // place under the cursor is read too, for refusal 20.
                    let pixel = if transfers_on(control) {
                        self.pixel(memory, first_pixel + number as u64)?
                    } else {
                        0
                    };
                    *colour = match self.cursor_at(screen_x + number as u32, screen_y) {
                        Some(cursor_colour) => cursor_colour,
                        None => self.colour_of(pixel),
                    };
                    add_to_sums(&mut sums, *colour);
                }
            }
            after.v = v + 1;
        } else {
            request = transfers_on(control)
                && if after.v == 0 {
                    // High in the TransferDelay ticks just before the field's
                    // first visible tick.
                    self.shows_within(place, p[TRANSFER_DELAY])
                } else if self.shows_within(place, u32::MAX) {
                    // Between lines it keeps its value at the visible tick before.
                    after.last_request
                } else {
                    // After the field's last visible tick it is low.
                    false
                };
        }

        after.place = self.place_after(place);
        if starts_a_field(&after.place) {
            // v counts a field's visible ticks from 0.
            after.v = 0;
        }
        self.generator = after;
        self.sums = sums;
        Ok(Signals {
            sync: !sync_low,
            vertical_sync,
            frame_inactive,
            blank,
            request,
            address,
            colours,
            visible,
        })
    }

    // -----------------------------------------------------------------------
    // Places in the frame. Document 01, "Lines and frames"; document 02, Q-4.
    // -----------------------------------------------------------------------

    /// The place of the tick after one. A field is VPreEqualise, VSync,
    /// VPostEqualise, VBlank, VDisplay, counted in half lines of LineTime/2 ticks;
    /// half lines are numbered through the frame.
    fn place_after(&self, mut place: Place) -> Place {
        let p = &self.parameters;
        place.unit += 1;
        if place.unit < p[LINE_TIME] / 2 {
            return place;
        }
        place.unit = 0;
        place.half_line += 1;
        place.half_line_of_frame += 1;
        let (half_lines, next) = match place.period {
            Period::PreEqualise => (p[V_PRE_EQUALISE], Period::VSync),
            Period::VSync => (p[V_SYNC], Period::PostEqualise),
            Period::PostEqualise => (p[V_POST_EQUALISE], Period::VBlank),
            Period::VBlank => (p[V_BLANK], Period::VDisplay),
            Period::VDisplay => (p[V_DISPLAY], Period::PreEqualise),
        };
        if place.half_line < half_lines {
            // Within VDisplay every first half begins another line.
            if place.period == Period::VDisplay && !self.in_second_half(&place) {
                place.line += 1;
            }
            return place;
        }
        place.half_line = 0;
        place.line = 0;
        place.period = next;
        if next == Period::PreEqualise {
            // A frame is one field, or two when interlaced.
            place.in_second_field = interlaced(self.control) && !place.in_second_field;
            if !place.in_second_field {
                place.half_line_of_frame = 0;
            }
        }
        place
    }

    /// Whether a half line of VBlank or VDisplay is the second half of a line:
    /// interlaced an odd one of the frame, otherwise an odd one of its period, for
    /// lines are then counted from VBlank's first half line and VBlank is even.
    fn in_second_half(&self, place: &Place) -> bool {
        if interlaced(self.control) {
            place.half_line_of_frame % 2 == 1
        } else {
            place.half_line % 2 == 1
        }
    }

    /// The screen unit of the full line, in VBlank and VDisplay.
    fn unit_of_line(&self, place: &Place) -> u32 {
        if self.in_second_half(place) {
            self.parameters[LINE_TIME] / 2 + place.unit
        } else {
            place.unit
        }
    }

    /// A full line is twice HalfSync, BackPorch, Display, then front porch.
    fn display_begins(&self) -> u32 {
        2 * self.parameters[HALF_SYNC] + self.parameters[BACK_PORCH]
    }

    /// A visible tick is a Display tick inside VDisplay.
    fn is_visible(&self, place: &Place) -> bool {
        let begins = self.display_begins();
        let unit = self.unit_of_line(place);
        place.period == Period::VDisplay
            && unit >= begins
            && unit < begins + self.parameters[DISPLAY]
    }

    /// Whether one of the next `ticks` ticks of the same field is visible.
    fn shows_within(&self, mut place: Place, ticks: u32) -> bool {
        for _ in 0..ticks {
            place = self.place_after(place);
            if starts_a_field(&place) {
                return false;
            }
            if self.is_visible(&place) {
                return true;
            }
        }
        false
    }

    /// Document 01, "Rows and pixels": picture memory is packed, least
    /// significant bits of a byte first. 20: a pixel to be read ends beyond the
    /// picture memory.
    fn pixel(&self, memory: &[u8], place: u64) -> Result<u32, Refusal> {
        let depth = DEPTHS[depth_code(self.control)];
        let first_bit = place * u64::from(depth);
        // A depth divides 8, so a pixel lies in one byte.
        let byte = usize::try_from(first_bit / 8)
            .ok()
            .and_then(|at| memory.get(at))
            .ok_or(20u32)?;
        let shift = (first_bit % 8) as u32;
        Ok((u32::from(*byte) >> shift) & ((1 << depth) - 1))
    }

    /// Document 01, "Rows and pixels": for each channel, the pixel ANDed with
    /// that channel's byte of the mask picks the palette entry.
    fn colour_of(&self, pixel: u32) -> u32 {
        let channel = |shift: u32| {
            let entry = pixel & (self.mask >> shift) & 0xFF;
            self.palette[entry as usize] & (0xFF << shift)
        };
        channel(16) | channel(8) | channel(0)
    }

    /// The cursor's colour at a pixel of the screen, where the cursor is on,
    /// covers it and is not transparent there. Document 01, "Rows and pixels":
    /// the cursor covers 64 by 64 pixels from its position; x in bits 23 to 12, y
    /// in bits 11 to 0. Word 8 x row + column/8 holds eight columns, lowest bits
    /// first. 00 is transparent; 01, 10, 11 are cursor colours 1, 2, 3.
    fn cursor_at(&self, screen_x: u32, screen_y: u32) -> Option<u32> {
        if !cursor_on(self.control) {
            return None;
        }
        let column = screen_x as i32 - signed_12_bits(self.cursor_position >> 12);
        let row = screen_y as i32 - signed_12_bits(self.cursor_position);
        if !(0..64).contains(&column) || !(0..64).contains(&row) {
            return None;
        }
        let word = self.cursor_store[(8 * row + column / 8) as usize];
        match (word >> (2 * (column % 8))) & 3 {
            0 => None,
            number => Some(self.cursor_colours[number as usize - 1]),
        }
    }

    // -----------------------------------------------------------------------
    // The whole picture.
    // -----------------------------------------------------------------------

    /// The visible pixels of a frame, four to a visible tick, counted tick by tick.
    pub fn visible_pixels(&self) -> u64 {
        let mut pixels = 0;
        let mut place = FRAME_START;
        loop {
            if self.is_visible(&place) {
                pixels += 4;
            }
            place = self.place_after(place);
            if starts_a_field(&place) && !place.in_second_field {
                return pixels;
            }
        }
    }

    /// A whole picture: one frame ticked, the visible ticks' colours joined, so
    /// that of two fields the first comes before the second.
    /// Order: 22, 21, 20. The frame is ticked on a copy of the machine, so a
    /// refusal leaves machine and buffer as they were; an accepted picture leaves
    /// the machine at the start of the next frame.
    pub fn picture(&mut self, memory: &[u8], buffer: &mut [u8]) -> Result<(), Refusal> {
        // 22: whole picture asked while stopped or not at a frame start.
        if !self.running() || !self.at_a_frame_start() {
            return Err(22);
        }
        // 21: picture buffer not exactly 3 bytes for each visible pixel.
        if buffer.len() as u64 != 3 * self.visible_pixels() {
            return Err(21);
        }
        let mut copy = self.clone();
        let mut bytes = Vec::with_capacity(buffer.len());
        loop {
            let signals = copy.tick(memory)?;
            if signals.visible {
                for colour in signals.colours {
                    bytes.extend_from_slice(&channels(colour));
                }
            }
            if copy.at_a_frame_start() {
                break;
            }
        }
        for (to, from) in buffer.iter_mut().zip(bytes) {
            *to = from;
        }
        *self = copy;
        Ok(())
    }
}

/// Whether a place is the first of a field.
fn starts_a_field(place: &Place) -> bool {
    place.period == Period::PreEqualise && place.half_line == 0 && place.unit == 0
}

/// A 12-bit field in two's complement: -2,048 to 2,047.
fn signed_12_bits(field: u32) -> i32 {
    let low = (field & 0xFFF) as i32;
    if low >= 2048 {
        low - 4096
    } else {
        low
    }
}

/// Red, green, blue of a colour.
fn channels(colour: u32) -> [u8; 3] {
    [(colour >> 16) as u8, (colour >> 8) as u8, colour as u8]
}

/// Document 01, "Rows and pixels", last paragraph: each unblanked colour byte is
/// added to its 24-bit sum, which rolls over past #FFFFFF.
fn add_to_sums(sums: &mut [u32; 3], colour: u32) {
    for (sum, byte) in sums.iter_mut().zip(channels(colour)) {
        *sum = (*sum + u32::from(byte)) & GREATEST;
    }
}
