//! Adomvik, a proved battery-pack protector, for Rust: a safe face over `libadomvik.a`, with no dependencies.
//!
//! A [`Row`] owns its board records. Every act returns its answer, or the [`Refusal`] of the paper's table; a refused act has
//! changed nothing. What C callers must see to themselves (lengths, places that do not overlap) the types here see to.
//!
//! ```
//! use adomvik::{Readings, Row};
//!
//! let mut row = Row::open([5, 10])?;
//! let readings = Readings { elapsed: 1_000, shunt: 0, thermistor: 2_000, load: 0 };
//! let answer = row.sample(1, readings, &[4_000; 5])?;
//! assert!(answer.chg_on() && answer.dsg_on());
//! # Ok::<(), adomvik::Refusal>(())
//! ```
//!
//! A board whose faults a host clears itself is opened by its [`Plan`], and has register 1:
//!
//! ```
//! use adomvik::{Plan, Row, CONTROL_CHG, CONTROL_DSG};
//!
//! let mut row = Row::open_plans([Plan::stand_alone(5), Plan::host(10)])?;
//! assert!(!row.read()?.chg);
//! let both = CONTROL_CHG + CONTROL_DSG;
//! let write = [2 * 2 + 1, 1, both, 0xc7];
//! assert_eq!(row.frame(&write)?, write);
//! assert!(row.read()?.chg && row.read()?.dsg);
//! # Ok::<(), adomvik::Refusal>(())
//! ```
//!
//! A small garden pack goes by counts of samples, and starts with OV latched until as many as its trigger were inside:
//!
//! ```
//! use adomvik::{Plan, Readings, Row, BQ7791500};
//!
//! let mut row = Row::open_plans([Plan::garden(3, BQ7791500, 2)])?;
//! let readings = Readings { elapsed: 1_000, shunt: 0, thermistor: 2_000, load: 0 };
//! assert!(!row.sample(1, readings, &[3_600; 3])?.chg_on());
//! assert!(row.sample(1, readings, &[3_600; 3])?.chg_on());
//! # Ok::<(), adomvik::Refusal>(())
//! ```
//!
//! Every board tallies how often SCD, OCD, OV, UV and overtemperature have latched, each up to 65,535. Registers 16 to 20 read the
//! low bytes in this order, 24 to 28 the high bytes:
//!
//! ```
//! use adomvik::{Readings, Row};
//!
//! let mut row = Row::open([5])?;
//! let hot = Readings { elapsed: 1_000, shunt: 0, thermistor: 900, load: 0 };
//! row.sample(1, hot, &[3_600; 5])?;
//! let (low, high) = (row.frame(&[2, 20, 0, 213])?[2], row.frame(&[2, 28, 0, 125])?[2]);
//! assert_eq!(u16::from_le_bytes([low, high]), 1);
//! # Ok::<(), adomvik::Refusal>(())
//! ```
//!
//! And every board keeps its last 128 latchings, each with its cause, the lowest cell at fault and the number of the sample:
//!
//! ```
//! use adomvik::{Latching, Readings, Row, CAUSE_SCD, JOURNAL_MAX};
//!
//! let mut row = Row::open([5])?;
//! let quiet = Readings { elapsed: 1_000, shunt: 0, thermistor: 2_000, load: 0 };
//! row.sample(1, quiet, &[3_600; 5])?;
//! row.sample(1, Readings { shunt: 60_001, ..quiet }, &[3_600; 5])?;
//! let mut entries = [Latching::default(); JOURNAL_MAX];
//! let count = row.listing(1, &mut entries)?;
//! assert_eq!(entries[..count], [Latching { cause: CAUSE_SCD, cell: 0, number: 2 }]);
//! # Ok::<(), adomvik::Refusal>(())
//! ```
//!
//! Whether anything is up is a question of its own, whose search stops at the first board with a latch:
//!
//! ```
//! use adomvik::{Line, Readings, Row};
//!
//! let mut row = Row::open([5, 5, 5])?;
//! assert_eq!(row.up()?, Line { line: false, looked: 3 });
//! let hot = Readings { elapsed: 1_000, shunt: 0, thermistor: 900, load: 0 };
//! row.sample(2, hot, &[3_600; 5])?;
//! assert_eq!(row.up()?, Line { line: true, looked: 2 });
//! # Ok::<(), adomvik::Refusal>(())
//! ```
//!
//! A day of a stack is recorded into lent memory by a [`Recorder`] beside it, act by act with the answer that each got:
//!
//! ```
//! use adomvik::{Plan, Recorder, Refusal, Row};
//!
//! let plans = [Plan::stand_alone(5), Plan::host(6)];
//! let mut memory = [0; 20];
//! let mut row = Row::open_plans(plans)?;
//! let mut recorder = Recorder::begin(&mut memory, &plans);
//! recorder.verdict()?;
//! recorder.note_reading(&mut memory, row.read())?;
//! assert_eq!(recorder.recording(&memory), [1, 0, 2, 0, 1, 0, 0, 0, 0, 5, 1, 6, 3, 0, 0, 0, 0, 0, 0, 0]);
//! // another reading would pass the end of the memory: it stands, and is not recorded
//! assert_eq!(recorder.note_reading(&mut memory, row.read()), Err(Refusal::RecordingRoom));
//! # Ok::<(), adomvik::Refusal>(())
//! ```
//!
//! A recording, whoever wrote it, is checked by doing its acts again on a lent row:
//!
//! ```
//! use adomvik::{check, Board, Checked, Refusal, BOARDS_MAX, RECORD_BYTES};
//!
//! let mut row = [Board::from_bytes(&[0; RECORD_BYTES]); BOARDS_MAX];
//! let mut recording = [1, 0, 1, 0, 1, 0, 0, 0, 0, 5, 3, 0, 0, 0, 1, 1, 0, 0];
//! assert_eq!(check(&mut row, &recording), Checked::Right);
//! recording[14] = 0; // that CHG is off
//! assert_eq!(check(&mut row, &recording), Checked::Wrong { place: 1 });
//! assert_eq!(check(&mut row, &recording[..17]), Checked::Refused { why: Refusal::CutShort, at: 13 });
//! ```
#![no_std]
#![warn(missing_docs)]

use core::fmt;
use core::mem::{align_of, size_of};

/// The most boards that a stack has.
pub const BOARDS_MAX: usize = 16;
/// The bytes of a record.
pub const RECORD_BYTES: usize = 780;
/// The bytes of a frame and of a reply.
pub const FRAME_BYTES: usize = 4;
/// The most entries of a board's journal: room for so many is always enough for its listing.
pub const JOURNAL_MAX: usize = 128;
/// The most bytes of a recording that is made here: of more memory the rest is not used.
pub const RECORDING_MAX: usize = 65_535;
/// The bytes of a recorder.
pub const RECORDER_BYTES: usize = 8;

/// Register 1 of a host board: a write that takes this bit from 1 to 0 clears the faults that are over on the last sample.
pub const CONTROL_CLEAR: u8 = 1;
/// Register 1 of a host board: DSG may be on. A fault that latches and forbids the switch clears the bit.
pub const CONTROL_DSG: u8 = 2;
/// Register 1 of a host board: CHG may be on, likewise.
pub const CONTROL_CHG: u8 = 4;

/// A row of the garden boards' device table: OV 4200 less 200 mV, UV 2900 and 400 mV, which waits for the load to be removed.
pub const BQ7791500: u32 = 0;
/// OV 4250 less 200 mV, UV 2800 and 400 mV, which waits for the load to be removed.
pub const BQ7791501: u32 = 1;
/// OV 4275 less 100 mV, UV 2000 and 200 mV.
pub const BQ7791504: u32 = 2;

/// A cause of a latching: a short circuit in discharge.
pub const CAUSE_SCD: u32 = 0;
/// Overcurrent in discharge.
pub const CAUSE_OCD: u32 = 1;
/// Overvoltage of a cell.
pub const CAUSE_OV: u32 = 2;
/// Undervoltage of a cell.
pub const CAUSE_UV: u32 = 3;
/// Overtemperature.
pub const CAUSE_HOT: u32 = 4;

/// Why an act was refused, or not recorded, or a recording not checked, with the paper's number.
#[derive(Clone, Copy, Debug, PartialEq, Eq)]
#[repr(u8)]
pub enum Refusal {
    /// Not 1 to 16 boards, or one of no kind, or of cells, a row or a trigger that its kind has not.
    BadRow = 1,
    /// No board of that number.
    NoBoard = 2,
    /// The cell list is not as long as the board's cell count.
    CellList = 3,
    /// Elapsed time not 1 to 100,000 µs.
    Elapsed = 4,
    /// A cell or the thermistor above 5,000 mV, the shunt beyond 500,000 µV, or the load flag not 0 or 1.
    OutOfRange = 5,
    /// The frame is not 4 bytes.
    FrameLength = 6,
    /// The reply buffer is under 4 bytes.
    ReplyRoom = 7,
    /// The check byte is wrong.
    CheckByte = 8,
    /// A board of that kind has no such register, or a write to one that is only read.
    NoRegister = 9,
    /// A read with a value, or a write of one that the register does not take.
    BadValue = 10,
    /// Programming staged settings unlike the working ones, three cycles already spent.
    NoCycle = 11,
    /// Programming staged settings whose SCD level is not above their OCD level.
    LevelsCrossed = 13,
    /// The lent entry buffer is too short for the listing.
    ListRoom = 14,
    /// Of a recorder alone: a garden board in the stack, another kind of act, a field too large, a body over 255 bytes, or a frame
    /// whose reply buffer is under 4 bytes.
    NotRecordable = 15,
    /// Of a recorder alone: no room in the memory for the header or the act, now or at an earlier act.
    RecordingRoom = 16,
    /// Of a check alone: the recording is cut short.
    CutShort = 17,
    /// Of a check alone: a wrong edition, board or cell count, kind, or body length for its kind.
    WrongField = 18,
    /// Of a check alone: bytes are left over after the last act.
    LeftOver = 19,
}

impl Refusal {
    /// The paper's number.
    pub fn number(self) -> u8 {
        self as u8
    }

    /// What the library returned: 0 is no refusal.
    fn check(number: u8) -> Result<(), Refusal> {
        if number == 0 {
            Ok(())
        } else {
            Err(Refusal::of(number))
        }
    }

    /// By their contracts the library's functions return no number that is none of these.
    fn of(number: u8) -> Refusal {
        Refusal::from_number(number).unwrap_or(Refusal::RecordingRoom)
    }

    /// The refusal of a number, as a recording has it; 12 is a program's own and none of the library's. A table looked up by the
    /// number would put a bounds panic into every image.
    pub fn from_number(number: u8) -> Option<Refusal> {
        match number {
            1 => Some(Refusal::BadRow),
            2 => Some(Refusal::NoBoard),
            3 => Some(Refusal::CellList),
            4 => Some(Refusal::Elapsed),
            5 => Some(Refusal::OutOfRange),
            6 => Some(Refusal::FrameLength),
            7 => Some(Refusal::ReplyRoom),
            8 => Some(Refusal::CheckByte),
            9 => Some(Refusal::NoRegister),
            10 => Some(Refusal::BadValue),
            11 => Some(Refusal::NoCycle),
            13 => Some(Refusal::LevelsCrossed),
            14 => Some(Refusal::ListRoom),
            15 => Some(Refusal::NotRecordable),
            16 => Some(Refusal::RecordingRoom),
            17 => Some(Refusal::CutShort),
            18 => Some(Refusal::WrongField),
            19 => Some(Refusal::LeftOver),
            _ => None,
        }
    }
}

impl fmt::Display for Refusal {
    fn fmt(&self, f: &mut fmt::Formatter<'_>) -> fmt::Result {
        write!(f, "refusal {}", self.number())
    }
}

/// What a board is to be: its kind and its cells. Any numbers make a plan; one that no board can have is refused as it is opened.
#[derive(Clone, Copy, Debug, PartialEq, Eq)]
#[repr(transparent)]
pub struct Plan(u32);

const _: () = assert!(size_of::<Plan>() == 4 && align_of::<Plan>() == 4);

impl Plan {
    const STAND_ALONE: u32 = 0;
    const HOST: u32 = 1;
    const GARDEN: u32 = 2;

    /// A board of 5 to 10 cells whose faults let go by themselves.
    pub const fn stand_alone(cells: u32) -> Plan {
        Plan::of(Plan::STAND_ALONE, cells, 0, 0)
    }

    /// A board of 5 to 10 cells whose host clears its faults and lets its switches on, by register 1. Overtemperature lets go by
    /// itself.
    pub const fn host(cells: u32) -> Plan {
        Plan::of(Plan::HOST, cells, 0, 0)
    }

    /// A garden board of 3 to 5 cells, by a row of the device table and a trigger of 1 to 255: so many counts latch OV or UV, and
    /// so many let it go. It starts with OV latched, and of the registers has only 0 and those of the tallies.
    pub const fn garden(cells: u32, row: u32, trigger: u32) -> Plan {
        Plan::of(Plan::GARDEN, cells, row, trigger)
    }

    const fn of(kind: u32, cells: u32, row: u32, trigger: u32) -> Plan {
        let fits = cells < 256 && row < 256 && trigger < 256;
        Plan(if fits { trigger << 24 | row << 16 | kind << 8 | cells } else { 0 })
    }
}

#[derive(Clone, Copy)]
#[repr(C)]
struct Settings {
    registers: [u8; 5],
}

#[derive(Clone, Copy)]
#[repr(C)]
struct Run {
    one: u32,
    other: u32,
}

/// The last sample; before the first one, what no fault is over on.
#[derive(Clone, Copy)]
#[repr(C)]
struct Last {
    low: u32,
    high: u32,
    shunt: i32,
}

/// A garden board's own part: its row and trigger, and the recovery counts of its two faults.
#[derive(Clone, Copy)]
#[repr(C)]
struct Filter {
    row: u8,
    trigger: u8,
    ov_back: u8,
    uv_back: u8,
}

/// How often each fault has latched, in the order of the status byte's bits; each stops at 65,535.
#[derive(Clone, Copy)]
#[repr(C)]
struct Tallies {
    faults: [u16; 5],
}

/// The last latchings in a ring: of each the sample's number, and in one byte the cause and the cell.
#[derive(Clone, Copy)]
#[repr(C)]
struct Journal {
    numbers: [u32; JOURNAL_MAX],
    whats: [u8; JOURNAL_MAX],
    next: u8,
    len: u8,
}

const _: () = assert!(size_of::<Journal>() == 644 && align_of::<Journal>() == 4);

/// One board's record. It is made by an opening, or from bytes that were kept: every pattern of bytes is a record.
///
/// It had 104 bytes before there were host boards, 120 before there were garden boards, 124 before there were tallies, and 132
/// before there was a journal. 132 bytes that were kept are a board's of any kind, and get zeros behind them: its journal begins
/// there, with the next sample as number 1. So are 124, but zeros begin at byte 122, as its tallies. 120 are a stand-alone or a host
/// board's, and those up to byte 122 may be anything. 104 are a stand-alone board's likewise, but byte 3, which was padding, has to
/// be 0 now.
#[derive(Clone, Copy)]
#[repr(C)]
pub struct Board {
    count: u8,
    latches: u8,
    cycles: u8,
    kind: u8,
    flags: u16,
    working: Settings,
    staged: Settings,
    currents: Run,
    cells: [Run; 10],
    last: Last,
    control: u8,
    garden: Filter,
    tallies: Tallies,
    samples: u32,
    journal: Journal,
}

const _: () = assert!(size_of::<Board>() == RECORD_BYTES && align_of::<Board>() == 4);

/// What a sample reads beside the cells.
#[derive(Clone, Copy, Debug, PartialEq, Eq)]
#[repr(C)]
pub struct Readings {
    /// µs since the board's last sample.
    pub elapsed: u32,
    /// µV; discharge is positive, charge is negative.
    pub shunt: i32,
    /// mV.
    pub thermistor: u32,
    /// 1 attached, 0 not.
    pub load: u32,
}

const _: () = assert!(size_of::<Readings>() == 16 && align_of::<Readings>() == 4);

/// The answer to a sample.
#[derive(Clone, Copy, Debug, PartialEq, Eq)]
#[repr(C)]
pub struct Sampled {
    /// Register 0: the latched faults and the switches.
    pub status: u8,
    /// The bled cells as a number: cell 1 is worth 1, cell 2 is worth 2, cell 3 is worth 4 and so on.
    pub bled: u16,
}

const _: () = assert!(size_of::<Sampled>() == 4);

impl Sampled {
    /// Whether the charge switch is on.
    pub fn chg_on(self) -> bool {
        self.status & 0x80 != 0
    }

    /// Whether the discharge switch is on.
    pub fn dsg_on(self) -> bool {
        self.status & 0x40 != 0
    }
}

#[repr(C)]
struct RawReading {
    line: u8,
    chg: u8,
    dsg: u8,
    board: u8,
    cell: u8,
}

const _: () = assert!(size_of::<RawReading>() == 5);

/// A whole-stack reading.
#[derive(Clone, Copy, Debug, PartialEq, Eq)]
pub struct Reading {
    /// Board 1's fault line is up.
    pub line: bool,
    /// CHG is on at every board.
    pub chg: bool,
    /// DSG is on at every board.
    pub dsg: bool,
    /// The southernmost board with a flagged cell and the lowest such cell on it.
    pub flagged: Option<(u8, u8)>,
}

#[repr(C)]
struct RawLine {
    line: u8,
    looked: u8,
}

const _: () = assert!(size_of::<RawLine>() == 2);

/// The fault line alone.
#[derive(Clone, Copy, Debug, PartialEq, Eq)]
pub struct Line {
    /// Board 1's fault line is up.
    pub line: bool,
    /// The boards looked at: the number of the southernmost with a latch, or of all boards where none has one.
    pub looked: u8,
}

/// An entry of a listing. Causes and cells of a record that came from no opening may be any numbers up to 15.
#[derive(Clone, Copy, Debug, Default, PartialEq, Eq)]
#[repr(C)]
pub struct Latching {
    /// One of the five causes, [`CAUSE_SCD`] to [`CAUSE_HOT`].
    pub cause: u32,
    /// Of OV and UV the lowest cell at fault, that stood its delay or reached its trigger; of the others 0.
    pub cell: u32,
    /// The number of the board's accepted sample that latched it, from 1; held at 4,294,967,295.
    pub number: u32,
}

const _: () = assert!(size_of::<Latching>() == 12 && align_of::<Latching>() == 4);

/// How far the recording of a day has come in the memory that is lent for it. It borrows nothing: every call is lent the memory, and
/// it should be the same one each time. `include/adomvik.h` says what the bytes of a recording are.
///
/// An act is noted after it was made, accepted or refused. Where it could not be recorded it stands all the same, and the memory is
/// as it was: at [`Refusal::NotRecordable`] the recording goes on without the act; from the first [`Refusal::RecordingRoom`] on,
/// every act that could be recorded gets that.
#[derive(Clone, Copy, Debug, PartialEq, Eq)]
#[repr(C)]
pub struct Recorder {
    used: u32,
    acts: u16,
    stopped: u8,
    verdict: u8,
}

const _: () = assert!(size_of::<Recorder>() == RECORDER_BYTES && align_of::<Recorder>() == 4);

#[repr(C)]
struct RawChecked {
    place: u32,
    number: u8,
}

const _: () = assert!(size_of::<RawChecked>() == 8 && align_of::<RawChecked>() == 4);

/// What a check of a recording came to.
#[derive(Clone, Copy, Debug, PartialEq, Eq)]
#[must_use]
pub enum Checked {
    /// Every answer in it is right.
    Right,
    /// An answer is wrong.
    Wrong {
        /// The place of the first act that has one, counted from 1.
        place: u32,
    },
    /// It could not be read, which is told before any answer is judged, or it has more boards than were lent.
    Refused {
        /// [`Refusal::CutShort`], [`Refusal::WrongField`], [`Refusal::LeftOver`], or after these [`Refusal::BadRow`].
        why: Refusal,
        /// The byte, counted from 0, at which the field begins that is cut short or wrong, or at which what is left over begins; held
        /// at 4,294,967,295. Where too few boards were lent, how many the recording has.
        at: u32,
    },
}

// The header include/adomvik.h in Rust. A slice is passed as a pointer and a length, a record by reference.
extern "C" {
    fn adomvik_open(row: *mut Board, boards: usize, counts: *const u32, count: usize) -> u8;
    fn adomvik_open_plans(row: *mut Board, boards: usize, plans: *const Plan, count: usize) -> u8;
    fn adomvik_sample(row: *mut Board, boards: usize, board: u32, readings: Readings, cells: *const u32, count: usize, out: &mut Sampled) -> u8;
    fn adomvik_sample_board(board: &mut Board, readings: Readings, cells: *const u32, count: usize, out: &mut Sampled) -> u8;
    fn adomvik_frame(row: *mut Board, boards: usize, frame: *const u8, length: usize, reply: *mut u8, room: usize) -> u8;
    fn adomvik_read(row: *const Board, boards: usize, out: &mut RawReading) -> u8;
    fn adomvik_up(row: *const Board, boards: usize, out: &mut RawLine) -> u8;
    fn adomvik_list(row: *const Board, boards: usize, board: u32, words: *mut u32, many: usize) -> u32;
    fn adomvik_begin(memory: *mut u8, length: usize, plans: *const Plan, count: usize) -> Recorder;
    fn adomvik_note_sample(
        recorder: Recorder,
        memory: *mut u8,
        length: usize,
        board: u32,
        readings: Readings,
        cells: *const u32,
        count: usize,
        number: u8,
        status: u8,
        bled: u16,
    ) -> Recorder;
    fn adomvik_note_frame(
        recorder: Recorder,
        memory: *mut u8,
        length: usize,
        frame: *const u8,
        bytes: usize,
        reply: *const u8,
        room: usize,
        number: u8,
    ) -> Recorder;
    fn adomvik_note_reading(
        recorder: Recorder,
        memory: *mut u8,
        length: usize,
        number: u8,
        line: u8,
        chg: u8,
        dsg: u8,
        board: u8,
        cell: u8,
    ) -> Recorder;
    fn adomvik_note_other(recorder: Recorder) -> Recorder;
    fn adomvik_check_row(row: *mut Board, boards: usize, recording: *const u8, length: usize) -> RawChecked;
}

/// What `adomvik_list` returns of a refusal is its number and this; less is how many entries were listed.
const LISTING_REFUSED: u32 = 256;

impl Board {
    const EMPTY: Board = Board {
        count: 0,
        latches: 0,
        cycles: 0,
        kind: 0,
        flags: 0,
        working: Settings { registers: [0; 5] },
        staged: Settings { registers: [0; 5] },
        currents: Run { one: 0, other: 0 },
        cells: [Run { one: 0, other: 0 }; 10],
        last: Last { low: 0, high: 0, shunt: 0 },
        control: 0,
        garden: Filter { row: 0, trigger: 0, ov_back: 0, uv_back: 0 },
        tallies: Tallies { faults: [0; 5] },
        samples: 0,
        journal: Journal { numbers: [0; JOURNAL_MAX], whats: [0; JOURNAL_MAX], next: 0, len: 0 },
    };

    /// A sample of this record, with no row looked at.
    pub fn sample(&mut self, readings: Readings, cells: &[u32]) -> Result<Sampled, Refusal> {
        let mut out = Sampled { status: 0, bled: 0 };
        // SAFETY: two exclusive references and a slice, each with its own length.
        Refusal::check(unsafe { adomvik_sample_board(self, readings, cells.as_ptr(), cells.len(), &mut out) })?;
        Ok(out)
    }

    /// The record as bytes, to be kept.
    pub fn to_bytes(&self) -> [u8; RECORD_BYTES] {
        let mut bytes = [0; RECORD_BYTES];
        bytes[0] = self.count;
        bytes[1] = self.latches;
        bytes[2] = self.cycles;
        bytes[3] = self.kind;
        bytes[4..6].copy_from_slice(&self.flags.to_le_bytes());
        bytes[6..11].copy_from_slice(&self.working.registers);
        bytes[11..16].copy_from_slice(&self.staged.registers);
        let runs = core::iter::once(&self.currents).chain(&self.cells);
        for (place, run) in bytes[16..104].chunks_exact_mut(8).zip(runs) {
            place[..4].copy_from_slice(&run.one.to_le_bytes());
            place[4..].copy_from_slice(&run.other.to_le_bytes());
        }
        bytes[104..108].copy_from_slice(&self.last.low.to_le_bytes());
        bytes[108..112].copy_from_slice(&self.last.high.to_le_bytes());
        bytes[112..116].copy_from_slice(&self.last.shunt.to_le_bytes());
        bytes[116] = self.control;
        bytes[117] = self.garden.row;
        bytes[118] = self.garden.trigger;
        bytes[119] = self.garden.ov_back;
        bytes[120] = self.garden.uv_back;
        for (place, tally) in bytes[122..132].chunks_exact_mut(2).zip(self.tallies.faults) {
            place.copy_from_slice(&tally.to_le_bytes());
        }
        bytes[132..136].copy_from_slice(&self.samples.to_le_bytes());
        for (place, number) in bytes[136..648].chunks_exact_mut(4).zip(self.journal.numbers) {
            place.copy_from_slice(&number.to_le_bytes());
        }
        bytes[648..776].copy_from_slice(&self.journal.whats);
        bytes[776] = self.journal.next;
        bytes[777] = self.journal.len;
        bytes
    }

    /// The record of kept bytes, whatever they are.
    pub fn from_bytes(bytes: &[u8; RECORD_BYTES]) -> Board {
        let half = |at: usize| u16::from_le_bytes([bytes[at], bytes[at + 1]]);
        let word = |at: usize| u32::from_le_bytes([bytes[at], bytes[at + 1], bytes[at + 2], bytes[at + 3]]);
        let run = |at: usize| Run { one: word(at), other: word(at + 4) };
        let five = |at: usize| [bytes[at], bytes[at + 1], bytes[at + 2], bytes[at + 3], bytes[at + 4]];
        let journal = Journal {
            numbers: core::array::from_fn(|i| word(136 + 4 * i)),
            whats: core::array::from_fn(|i| bytes[648 + i]),
            next: bytes[776],
            len: bytes[777],
        };
        Board {
            count: bytes[0],
            latches: bytes[1],
            cycles: bytes[2],
            kind: bytes[3],
            flags: half(4),
            working: Settings { registers: five(6) },
            staged: Settings { registers: five(11) },
            currents: run(16),
            cells: core::array::from_fn(|i| run(24 + 8 * i)),
            last: Last { low: word(104), high: word(108), shunt: word(112) as i32 },
            control: bytes[116],
            garden: Filter { row: bytes[117], trigger: bytes[118], ov_back: bytes[119], uv_back: bytes[120] },
            tallies: Tallies { faults: core::array::from_fn(|i| half(122 + 2 * i)) },
            samples: word(132),
            journal,
        }
    }
}

/// Opens the row that `boards` lends: every record is made anew, a stand-alone board for each count.
pub fn open(boards: &mut [Board], counts: &[u32]) -> Result<(), Refusal> {
    // SAFETY: an exclusive and a shared slice, each with its own length.
    Refusal::check(unsafe { adomvik_open(boards.as_mut_ptr(), boards.len(), counts.as_ptr(), counts.len()) })
}

/// Opens the row that `boards` lends: every record is made anew, one for each plan.
pub fn open_plans(boards: &mut [Board], plans: &[Plan]) -> Result<(), Refusal> {
    // SAFETY: an exclusive and a shared slice, each with its own length.
    Refusal::check(unsafe { adomvik_open_plans(boards.as_mut_ptr(), boards.len(), plans.as_ptr(), plans.len()) })
}

/// A sample of board `board` of a lent row, counted from 1.
pub fn sample(row: &mut [Board], board: u32, readings: Readings, cells: &[u32]) -> Result<Sampled, Refusal> {
    let mut out = Sampled { status: 0, bled: 0 };
    // SAFETY: an exclusive slice, a shared one, and an exclusive reference to a local.
    Refusal::check(unsafe { adomvik_sample(row.as_mut_ptr(), row.len(), board, readings, cells.as_ptr(), cells.len(), &mut out) })?;
    Ok(out)
}

/// A frame to a lent row. The reply takes the first four bytes of its buffer; later bytes stay, and at a refusal all of them.
pub fn frame(row: &mut [Board], frame: &[u8], reply: &mut [u8]) -> Result<(), Refusal> {
    // SAFETY: two exclusive slices and a shared one, each with its own length.
    Refusal::check(unsafe { adomvik_frame(row.as_mut_ptr(), row.len(), frame.as_ptr(), frame.len(), reply.as_mut_ptr(), reply.len()) })
}

/// The whole-stack reading of a lent row.
pub fn read(row: &[Board]) -> Result<Reading, Refusal> {
    let mut out = RawReading { line: 0, chg: 0, dsg: 0, board: 0, cell: 0 };
    // SAFETY: a shared slice with its length, and an exclusive reference to a local.
    Refusal::check(unsafe { adomvik_read(row.as_ptr(), row.len(), &mut out) })?;
    let flagged = if out.board == 0 { None } else { Some((out.board, out.cell)) };
    Ok(Reading { line: out.line == 1, chg: out.chg == 1, dsg: out.dsg == 1, flagged })
}

/// Is anything up on a lent row? The line of its reading alone, by a search that stops at the first board with a latch.
pub fn up(row: &[Board]) -> Result<Line, Refusal> {
    let mut out = RawLine { line: 0, looked: 0 };
    // SAFETY: a shared slice with its length, and an exclusive reference to a local.
    Refusal::check(unsafe { adomvik_up(row.as_ptr(), row.len(), &mut out) })?;
    Ok(Line { line: out.line == 1, looked: out.looked })
}

/// The journal of board `board` of a lent row, counted from 1, oldest entry first: how many entries it has. They take the first of
/// the lent ones; later ones stay, and at a refusal all of them. [`JOURNAL_MAX`] are always enough.
pub fn listing(row: &[Board], board: u32, entries: &mut [Latching]) -> Result<usize, Refusal> {
    let room = entries.len().min(JOURNAL_MAX);
    // SAFETY: a shared slice with its length, and an exclusive one as three numbers for each of its first entries.
    let told = unsafe { adomvik_list(row.as_ptr(), row.len(), board, entries.as_mut_ptr().cast(), 3 * room) };
    if told < LISTING_REFUSED {
        Ok(told as usize)
    } else {
        Err(Refusal::of((told - LISTING_REFUSED) as u8))
    }
}

/// Checks a recording, of any length and from whoever wrote it: whether each answer in it is the one that its act gets after the acts
/// before it. The first boards of `row`, as many as the recording has, are opened by what it lists, whatever they held, and the acts
/// are done again up to the first whose answer differs, or to the last; later boards stay. Where the recording is refused, or has more
/// boards than are lent, all of them do. [`BOARDS_MAX`] are always enough.
pub fn check(row: &mut [Board], recording: &[u8]) -> Checked {
    let boards = match *recording {
        [_, _, low, high, ..] => row.len().min(u16::from_le_bytes([low, high]).into()),
        _ => row.len(),
    };
    // SAFETY: the first of an exclusive slice, no more than it has, and a shared slice with its length.
    let RawChecked { place, number } =
        unsafe { adomvik_check_row(row.as_mut_ptr(), boards, recording.as_ptr(), recording.len()) };
    match (number, place) {
        (0, 0) => Checked::Right,
        (0, place) => Checked::Wrong { place },
        (number, at) => Checked::Refused { why: Refusal::of(number), at },
    }
}

/// What an act returned as a number, 0 for accepted.
fn returned<T>(answer: &Result<T, Refusal>) -> u8 {
    answer.as_ref().map_or_else(|why| why.number(), |_| 0)
}

impl Recorder {
    /// Begins the recording of a stack that these plans open, before its first act: writes the header and the list of boards. Where
    /// [`verdict`](Recorder::verdict) is a refusal nothing is recorded: [`Refusal::BadRow`] where the plans open no stack, else
    /// [`Refusal::NotRecordable`] where one is of a garden board, else [`Refusal::RecordingRoom`].
    #[must_use]
    pub fn begin(memory: &mut [u8], plans: &[Plan]) -> Recorder {
        // SAFETY: an exclusive and a shared slice, each with its own length.
        unsafe { adomvik_begin(memory.as_mut_ptr(), memory.len(), plans.as_ptr(), plans.len()) }
    }

    /// Notes a sample: what was asked, and what it was answered. Not recordable where the board or the load is over 255, the
    /// thermistor or a cell over 65,535, or there are more than 121 cells.
    pub fn note_sample(
        &mut self,
        memory: &mut [u8],
        board: u32,
        readings: Readings,
        cells: &[u32],
        answer: Result<Sampled, Refusal>,
    ) -> Result<(), Refusal> {
        let number = returned(&answer);
        let Sampled { status, bled } = answer.unwrap_or(Sampled { status: 0, bled: 0 });
        let (at, length) = (memory.as_mut_ptr(), memory.len());
        // SAFETY: an exclusive and a shared slice, each with its own length.
        *self = unsafe {
            adomvik_note_sample(*self, at, length, board, readings, cells.as_ptr(), cells.len(), number, status, bled)
        };
        self.verdict()
    }

    /// Notes a frame: its bytes, the reply buffer as it is afterwards, and what was answered. Not recordable where the frame has more
    /// than 255 bytes, or the buffer less than four.
    pub fn note_frame(
        &mut self,
        memory: &mut [u8],
        frame: &[u8],
        reply: &[u8],
        answer: Result<(), Refusal>,
    ) -> Result<(), Refusal> {
        let (at, length) = (memory.as_mut_ptr(), memory.len());
        // SAFETY: an exclusive slice and two shared ones, each with its own length.
        *self = unsafe {
            adomvik_note_frame(*self, at, length, frame.as_ptr(), frame.len(), reply.as_ptr(), reply.len(), returned(&answer))
        };
        self.verdict()
    }

    /// Notes a whole-stack reading.
    pub fn note_reading(&mut self, memory: &mut [u8], answer: Result<Reading, Refusal>) -> Result<(), Refusal> {
        let number = returned(&answer);
        let Reading { line, chg, dsg, flagged } =
            answer.unwrap_or(Reading { line: false, chg: false, dsg: false, flagged: None });
        let (board, cell) = flagged.unwrap_or((0, 0));
        let (at, length) = (memory.as_mut_ptr(), memory.len());
        // SAFETY: an exclusive slice with its length.
        *self = unsafe {
            adomvik_note_reading(*self, at, length, number, line.into(), chg.into(), dsg.into(), board, cell)
        };
        self.verdict()
    }

    /// Notes a listing or a look for the fault line, which no recording has.
    pub fn note_other(&mut self) -> Result<(), Refusal> {
        // SAFETY: a value goes in and one comes out.
        *self = unsafe { adomvik_note_other(*self) };
        self.verdict()
    }

    /// Of the header, or of the act noted last: whether it stands in memory, and else why not.
    pub fn verdict(&self) -> Result<(), Refusal> {
        Refusal::check(self.verdict)
    }

    /// How many acts are recorded.
    pub fn acts(&self) -> u16 {
        self.acts
    }

    /// The bytes of the memory that hold the recording, header first; none where nothing is recorded.
    pub fn recording<'m>(&self, memory: &'m [u8]) -> &'m [u8] {
        memory.get(..self.used as usize).unwrap_or_default()
    }

    /// The recorder as bytes, to be kept beside its memory.
    pub fn to_bytes(&self) -> [u8; RECORDER_BYTES] {
        let ([a, b, c, d], [e, f]) = (self.used.to_le_bytes(), self.acts.to_le_bytes());
        [a, b, c, d, e, f, self.stopped, self.verdict]
    }

    /// The recorder of kept bytes, whatever they are.
    pub fn from_bytes(bytes: &[u8; RECORDER_BYTES]) -> Recorder {
        let [a, b, c, d, e, f, stopped, verdict] = *bytes;
        Recorder { used: u32::from_le_bytes([a, b, c, d]), acts: u16::from_le_bytes([e, f]), stopped, verdict }
    }
}

/// A stack of `N` boards that owns its records.
#[derive(Clone)]
pub struct Row<const N: usize> {
    boards: [Board; N],
}

impl<const N: usize> Row<N> {
    /// Opens a stack of stand-alone boards by the cell count of each, southernmost first.
    pub fn open(counts: [u32; N]) -> Result<Row<N>, Refusal> {
        let mut row = Row { boards: [Board::EMPTY; N] };
        open(&mut row.boards, &counts)?;
        Ok(row)
    }

    /// Opens a stack by the plan of each board, southernmost first.
    pub fn open_plans(plans: [Plan; N]) -> Result<Row<N>, Refusal> {
        let mut row = Row { boards: [Board::EMPTY; N] };
        open_plans(&mut row.boards, &plans)?;
        Ok(row)
    }

    /// A sample of board `board`, counted from 1.
    pub fn sample(&mut self, board: u32, readings: Readings, cells: &[u32]) -> Result<Sampled, Refusal> {
        sample(&mut self.boards, board, readings, cells)
    }

    /// A frame from the host; its reply.
    pub fn frame(&mut self, bytes: &[u8]) -> Result<[u8; FRAME_BYTES], Refusal> {
        let mut reply = [0; FRAME_BYTES];
        frame(&mut self.boards, bytes, &mut reply)?;
        Ok(reply)
    }

    /// The whole-stack reading.
    pub fn read(&self) -> Result<Reading, Refusal> {
        read(&self.boards)
    }

    /// Is anything up? The line of the reading alone, by a search that stops at the first board with a latch.
    pub fn up(&self) -> Result<Line, Refusal> {
        up(&self.boards)
    }

    /// The journal of board `board`, counted from 1, oldest entry first: how many entries it has. They take the first of the lent
    /// ones, and later ones stay; [`JOURNAL_MAX`] are always enough.
    pub fn listing(&self, board: u32, entries: &mut [Latching]) -> Result<usize, Refusal> {
        listing(&self.boards, board, entries)
    }

    /// Checks a recording: opens as many boards as it has, of whatever kind it lists, and does its acts again. Later boards stay, and
    /// where the recording is refused all of them do.
    pub fn check(&mut self, recording: &[u8]) -> Checked {
        check(&mut self.boards, recording)
    }

    /// The records, southernmost first.
    pub fn boards(&self) -> &[Board; N] {
        &self.boards
    }

    /// The record of a board, counted from 1, if there is one.
    pub fn board_mut(&mut self, board: usize) -> Option<&mut Board> {
        self.boards.get_mut(board.checked_sub(1)?)
    }
}

impl<const N: usize> From<[Board; N]> for Row<N> {
    /// A row of records that were kept; a row that is none is refused act by act.
    fn from(boards: [Board; N]) -> Row<N> {
        Row { boards }
    }
}
