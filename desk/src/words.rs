//! Words for a person at the desk: what stands behind a refusal's number, behind the numbers of a listing or of the fault line, why an
//! act was not recorded, and what a check came to. Nothing here decides anything.
use crate::acts::{Answer, Desk};
use crate::lines::{Flaw, Kind, Line, Wanted, What, LARGEST, LONGEST_LINE};
use adomvik::{Checked, Latching, Readings, Refusal, BOARDS_MAX, FRAME_BYTES};
use adomvik::{CAUSE_HOT, CAUSE_OCD, CAUSE_OV, CAUSE_SCD, CAUSE_UV};
use std::fmt::Display;
use std::io;
use std::path::Path;

/// What a recording begins with, and what it has room for: a body's bytes, the cells of a sample, and the largest numbers of one byte
/// and of two.
const HEADER_BYTES: usize = 8;
const BOARD_BYTES: usize = 2;
const BODY_MOST: usize = 255;
const CELLS_MOST: usize = 121;
const BYTE_MOST: u32 = 255;
const TWO_BYTES_MOST: u32 = 65_535;

pub const PROMPT: &str = "workshop> ";
pub const GREETING: &str = "The workshop. O 5 opens a board of five cells; help shows the lines; Ctrl-D ends.\n";
pub const HELP: &str = include_str!("../help.txt");

/// Whether a line is the word for help.
pub fn asks_help(line: &[u8]) -> bool {
    line == b"help"
}

/// What went wrong with a file, under its name.
pub fn named(path: &Path, why: io::Error) -> io::Error {
    io::Error::new(why.kind(), format!("{}: {why}", path.display()))
}

/// Why a line is malformed.
pub fn flaw(line: &[u8], flaw: &Flaw) -> String {
    let (place, found) = (flaw.at + 1, byte_at(line, flaw.at));
    let why = match flaw.what {
        What::TooLong => format!("a line has at most {LONGEST_LINE} bytes"),
        What::Empty => "an empty line asks nothing; try help".to_string(),
        What::NoLetter => format!("no line begins with {}; try help", byte_at(line, 0)),
        What::NoField => format!("a field is missing: the line ends at byte {}", flaw.at),
        What::NoSpace => format!("{found} at byte {place}, where one space or the end should be"),
        What::NoEnd => format!("{found} at byte {place}, where the line should end"),
        What::NoNumber => format!("{found} at byte {place}, where a number should be"),
        What::LeadingZero => format!("a leading zero at byte {place}"),
        What::MinusZero => format!("a minus sign before a zero at byte {place}"),
        What::TooLarge => format!("the number at byte {place} is over {LARGEST}"),
        What::NoByte => format!("a byte of a frame is over 255: it ends at byte {}", flaw.at),
        What::NoBoard => format!("{found} at byte {place}, where a board such as s5, h5 or g3/0/2 should be"),
        What::NoSlash => format!("{found} at byte {place}, where a slash and a number of the garden board should be"),
    };
    format!("no line of the workshop: {why}")
}

/// A byte of a line, as a person would name it.
fn byte_at(line: &[u8], at: usize) -> String {
    match line.get(at) {
        None => "the end".to_string(),
        Some(b' ') => "a space".to_string(),
        Some(byte @ b'!'..=b'~') => format!("'{}'", char::from(*byte)),
        Some(byte) => format!("byte number {byte}"),
    }
}

/// What an answer's numbers say: those of a listing, entry by entry, those of the fault line, and those of a recording.
pub fn answer(answer: &Answer) -> Option<String> {
    match answer {
        Answer::Listed([]) => Some("nothing has latched since the opening".to_string()),
        Answer::Listed(entries) => Some(entries.iter().map(latching).collect::<Vec<_>>().join("; ")),
        Answer::Up(adomvik::Line { line: true, looked }) => Some(format!("board {looked} has a latch")),
        Answer::Up(adomvik::Line { looked, .. }) => Some(format!("nothing is up on {}", counted(*looked, "board"))),
        Answer::Recording(Ok(())) => Some("what follows is recorded".to_string()),
        Answer::Shown(recording) => Some(counted(recording.len(), "byte")),
        _ => None,
    }
}

/// What a check came to. A person counts the bytes from 1.
pub fn checked(told: Checked) -> String {
    match told {
        Checked::Right => "every answer is right".to_string(),
        Checked::Wrong { place } => format!("the answer of act {place} is wrong"),
        Checked::Refused { why: why @ Refusal::LeftOver, at } => {
            format!("{}: from byte {} on", short(why), u64::from(at) + 1)
        }
        Checked::Refused { why, at } => format!("{}: the one that begins at byte {}", short(why), u64::from(at) + 1),
    }
}

/// So many of something.
pub fn counted<N: Display + PartialEq + From<u8>>(n: N, what: &str) -> String {
    let s = if n == N::from(1) { "" } else { "s" };
    format!("{n} {what}{s}")
}

fn latching(entry: &Latching) -> String {
    let Latching { cause, cell, number } = entry;
    let name = match *cause {
        CAUSE_SCD => "SCD",
        CAUSE_OCD => "OCD",
        CAUSE_OV => "OV",
        CAUSE_UV => "UV",
        CAUSE_HOT => "overtemperature",
        _ => "no cause",
    };
    if *cell == 0 {
        format!("{name} at sample {number}")
    } else {
        format!("{name}, cell {cell}, at sample {number}")
    }
}

/// Why the library refused what a line asked.
pub fn refusal(refused: Refusal, line: &Line, desk: &Desk) -> String {
    let particulars = match (refused, line) {
        (Refusal::BadRow, Line::Opening { boards }) => opening(boards),
        (Refusal::BadRow, _) => Some("none is open, and O 5 opens one".to_string()),
        (_, Line::Sample { board, readings, cells }) => sample(refused, *board, readings, cells, desk),
        (_, Line::Frame { bytes, room }) => frame(refused, bytes, *room, desk),
        (_, Line::Listing { board, room }) => listing(refused, *board, *room, desk),
        (_, Line::Shown) => Some("there is no recording, and W 65535 right after an opening starts one".to_string()),
        _ => None,
    };
    let short = short(refused);
    particulars.map_or(short.to_string(), |particulars| format!("{short}: {particulars}"))
}

pub fn short(refused: Refusal) -> &'static str {
    match refused {
        Refusal::BadRow => "no such stack",
        Refusal::NoBoard => "no such board",
        Refusal::CellList => "the cell list has another length",
        Refusal::Elapsed => "the elapsed time is out of range",
        Refusal::OutOfRange => "a reading is out of range",
        Refusal::FrameLength => "no frame has that length",
        Refusal::ReplyRoom => "no room for the reply",
        Refusal::CheckByte => "the check byte is wrong",
        Refusal::NoRegister => "no such register",
        Refusal::BadValue => "the value is not allowed",
        Refusal::NoCycle => "no programming cycle is left",
        Refusal::LevelsCrossed => "the staged levels are crossed",
        Refusal::ListRoom => "no room for the listing",
        Refusal::NotRecordable => "not recordable",
        Refusal::RecordingRoom => "no room in the recording",
        Refusal::CutShort => "a field of the recording is cut short",
        Refusal::WrongField => "a field of the recording is wrong",
        Refusal::LeftOver => "bytes are left over",
    }
}

/// Why a recording does not start, or does not have an act.
pub fn unrecorded(refused: Refusal, line: &Line, desk: &Desk) -> String {
    let particulars = if refused == Refusal::RecordingRoom { no_room(line, desk) } else { not_recordable(line, desk) };
    format!("{}: {particulars}", short(refused))
}

fn not_recordable(line: &Line, desk: &Desk) -> String {
    if let Some((number, _)) = (1..).zip(desk.stack()).find(|(_, board)| matches!(board.kind, Kind::Garden { .. })) {
        return format!("board {number} is a garden board");
    }
    match line {
        Line::Sample { board, readings, cells } => too_large(*board, readings, cells),
        Line::Frame { bytes, .. } if bytes.len() > BODY_MOST => format!("{} bytes, over {BODY_MOST}", bytes.len()),
        Line::Frame { room, .. } => format!("{room} bytes are lent for the reply, under {FRAME_BYTES}"),
        Line::Listing { .. } => "a listing is no act of a recording".to_string(),
        Line::Up => "a look for the fault line is no act of a recording".to_string(),
        _ => "the stack has had an act, and a recording starts right after an opening".to_string(),
    }
}

fn no_room(line: &Line, desk: &Desk) -> String {
    if let Line::Recording { room } = line {
        let boards = desk.stack().len();
        return format!("header and boards take {} bytes, {room} are lent", HEADER_BYTES + BOARD_BYTES * boards);
    }
    format!("{} of {} bytes are taken", desk.recording().len(), desk.recording_room())
}

/// What of a sample a recording has no room for, by the width of its fields.
fn too_large(board: u32, readings: &Readings, cells: &[u32]) -> String {
    let Readings { thermistor, load, .. } = *readings;
    let over = |what: &str, n: u32, most: u32| (n > most).then(|| format!("{what} {n}, over {most}"));
    over("board", board, BYTE_MOST)
        .or_else(|| over("load flag", load, BYTE_MOST))
        .or_else(|| over("thermistor", thermistor, TWO_BYTES_MOST))
        .or_else(|| {
            (1..).zip(cells).find_map(|(cell, reads)| over(&format!("cell {cell} reads"), *reads, TWO_BYTES_MOST))
        })
        .unwrap_or_else(|| format!("{} cells, over {CELLS_MOST}", cells.len()))
}

fn opening(boards: &[Wanted]) -> Option<String> {
    if boards.is_empty() || boards.len() > BOARDS_MAX {
        return Some(format!("it would have {} boards, and can have 1 to {BOARDS_MAX}", boards.len()));
    }
    (1..).zip(boards).find_map(|(number, board)| Some(format!("board {number} would have {}", misfit(board)?)))
}

/// What a board would have that no board of its kind can have.
fn misfit(board: &Wanted) -> Option<String> {
    let Wanted { kind, cells } = *board;
    let (fewest, most) = if let Kind::Garden { .. } = kind { (3, 5) } else { (5, 10) };
    if !(fewest..=most).contains(&cells) {
        return Some(format!("{cells} cells, and can have {fewest} to {most}"));
    }
    match kind {
        Kind::Garden { row, .. } if row > 2 => Some(format!("row {row} of the device table, which has 0 to 2")),
        Kind::Garden { trigger, .. } if !(1..=255).contains(&trigger) => {
            Some(format!("the trigger {trigger}, and can have 1 to 255"))
        }
        _ => None,
    }
}

fn no_board(board: u32, desk: &Desk) -> String {
    format!("{board}, and the stack has {}", desk.stack().len())
}

fn sample(refused: Refusal, board: u32, readings: &Readings, cells: &[u32], desk: &Desk) -> Option<String> {
    match refused {
        Refusal::NoBoard => Some(no_board(board, desk)),
        Refusal::CellList => {
            let (_, Wanted { cells: count, .. }) = (1..).zip(desk.stack()).find(|(number, _)| *number == board)?;
            Some(format!("board {board} has {count} cells, {} are given", cells.len()))
        }
        Refusal::Elapsed => Some(format!("{} us, not 1 to 100000", readings.elapsed)),
        Refusal::OutOfRange => Some(out_of_range(readings, cells)),
        _ => None,
    }
}

/// The first reading of a sample that is out of its range.
fn out_of_range(readings: &Readings, cells: &[u32]) -> String {
    let Readings { shunt, thermistor, load, .. } = readings;
    if let Some((cell, reads)) = (1..).zip(cells).find(|(_, reads)| **reads > 5_000) {
        format!("cell {cell} reads {reads} mV, over 5000")
    } else if *thermistor > 5_000 {
        format!("the thermistor reads {thermistor} mV, over 5000")
    } else if !(-500_000..=500_000).contains(shunt) {
        format!("the shunt reads {shunt} uV, beyond 500000")
    } else {
        format!("the load flag is {load}, not 0 or 1")
    }
}

fn frame(refused: Refusal, bytes: &[u8], room: usize, desk: &Desk) -> Option<String> {
    if refused == Refusal::FrameLength {
        return Some(format!("{} bytes, not {FRAME_BYTES}", bytes.len()));
    }
    if refused == Refusal::ReplyRoom {
        return Some(format!("it takes {FRAME_BYTES} bytes, {room} are lent"));
    }
    match bytes {
        [address, register, value, check] => of_register(refused, [*address, *register, *value, *check], desk),
        _ => None,
    }
}

fn of_register(refused: Refusal, frame: [u8; FRAME_BYTES], desk: &Desk) -> Option<String> {
    let [address, register, value, check] = frame;
    let (board, writes) = (address / 2, address % 2 == 1);
    match refused {
        Refusal::CheckByte => {
            let right = desk.right_check(address, register, value)?;
            Some(format!("{check} is given, {right} is right"))
        }
        Refusal::NoBoard => Some(no_board(board.into(), desk)),
        Refusal::NoRegister if writes => Some(format!("{register} of board {board} cannot be written")),
        Refusal::NoRegister => Some(format!("{register} of board {board} cannot be read")),
        Refusal::BadValue if writes => Some(format!("{value} written to register {register} of board {board}")),
        Refusal::BadValue => {
            Some(format!("{value} in a read of register {register} of board {board}, which carries 0"))
        }
        Refusal::NoCycle => Some(format!("board {board} has spent three, and its staged settings differ")),
        Refusal::LevelsCrossed => {
            let (over, short) = desk.staged_levels(board)?;
            Some(format!("SCD at {short} mV is not above OCD at {over} mV on board {board}"))
        }
        _ => None,
    }
}

fn listing(refused: Refusal, board: u32, room: usize, desk: &Desk) -> Option<String> {
    match refused {
        Refusal::NoBoard => Some(no_board(board, desk)),
        Refusal::ListRoom => Some(format!("it takes room for {}, room for {room} is lent", desk.latchings(board)?)),
        _ => None,
    }
}
