//! A recording in words: its header, its boards, and each act with its answer. It is read from the front, piece by piece, and the
//! first byte that is wrong or missing is named.
use crate::words::{self, counted, named};
use adomvik::{Reading, Readings, Refusal, Sampled, BOARDS_MAX};
use std::fmt;
use std::fs::File;
use std::io::{self, BufReader, Read, Write};
use std::path::Path;

const EDITION: u16 = 1;
const KINDS: [&str; 2] = ["stand-alone", "host"];
/// The kinds of act.
const SAMPLE: u8 = 1;
const FRAME: u8 = 2;
const READING: u8 = 3;
/// The bytes of a sample's body in front of its cells.
const SAMPLE_HEAD: u8 = 12;
const FAULTS: [&str; 5] = ["SCD", "OCD", "OV", "UV", "overtemperature"];
const DSG_ON: u8 = 64;
const CHG_ON: u8 = 128;

/// The refusals from here on are of a check alone: no act of a recording is answered so.
const FIRST_OF_A_CHECK: u8 = 17;

/// Shows a file, up to where it is damaged if it is.
pub fn show(path: &Path) -> io::Result<()> {
    let (file, mut out) = (File::open(path).map_err(|why| named(path, why))?, io::stdout().lock());
    for piece in Recording::new(file) {
        writeln!(out, "{}", piece.map_err(|why| named(path, why))?)?;
    }
    Ok(())
}

/// A piece of a recording that was read.
pub enum Piece {
    Header { boards: u16, acts: u32 },
    Board { number: u16, kind: &'static str, cells: u8 },
    Act { place: u32, act: Act },
}

/// An act, and the answer that is recorded.
pub struct Act {
    pub asked: Asked,
    pub told: Told,
}

/// What an act asks.
pub enum Asked {
    Sample { board: u8, readings: Readings, cells: Vec<u32> },
    Frame(Vec<u8>),
    Reading,
}

/// An answer by its numbers: a refusal's, a sample's status and bled cells, a reply, or the five of a reading.
pub enum Told {
    Refused(u8),
    Sampled(u8, u16),
    Replied([u8; 4]),
    Read([u8; 5]),
}

impl Told {
    /// The answer so that no two different ones read alike, as a check tells them beside one another.
    pub fn exactly(&self) -> String {
        match *self {
            Told::Refused(number) => refused(number, u8::MAX),
            Told::Read([line, chg, dsg, 0, cell]) if cell != 0 => {
                format!("fault line {line}, CHG {chg}, DSG {dsg}, {}", flagged(0, cell))
            }
            _ => self.to_string(),
        }
    }
}

impl From<Refusal> for Told {
    fn from(refused: Refusal) -> Told {
        Told::Refused(refused.number())
    }
}

impl From<Sampled> for Told {
    fn from(answer: Sampled) -> Told {
        Told::Sampled(answer.status, answer.bled)
    }
}

impl From<Reading> for Told {
    fn from(answer: Reading) -> Told {
        let (board, cell) = answer.flagged.unwrap_or((0, 0));
        Told::Read([answer.line.into(), answer.chg.into(), answer.dsg.into(), board, cell])
    }
}

/// What comes next of a recording.
#[derive(Clone, Copy)]
enum Part {
    Header,
    Board(u16),
    Act(u32),
    End,
    Nothing,
}

impl fmt::Display for Part {
    fn fmt(&self, f: &mut fmt::Formatter<'_>) -> fmt::Result {
        match self {
            Part::Header => write!(f, "in the header"),
            Part::Board(number) => write!(f, "in board {number}"),
            Part::Act(place) => write!(f, "in act {place}"),
            Part::End | Part::Nothing => write!(f, "behind the last act"),
        }
    }
}

/// The pieces of a recording, the last of them perhaps where it is damaged.
pub struct Recording<R> {
    bytes: io::Bytes<BufReader<R>>,
    at: usize,
    part: Part,
    boards: u16,
    acts: u32,
}

impl<R: Read> Iterator for Recording<R> {
    type Item = io::Result<Piece>;

    fn next(&mut self) -> Option<io::Result<Piece>> {
        let piece = match self.part {
            Part::Header => self.header(),
            Part::Board(number) => self.board(number),
            Part::Act(place) => self.act(place),
            Part::End => Err(self.left_over()?),
            Part::Nothing => return None,
        };
        self.part = if piece.is_ok() { self.behind() } else { Part::Nothing };
        Some(piece)
    }
}

impl<R: Read> Recording<R> {
    pub fn new(from: R) -> Recording<R> {
        Recording { bytes: BufReader::new(from).bytes(), at: 0, part: Part::Header, boards: 0, acts: 0 }
    }

    /// How many bytes were read so far.
    pub fn read(&self) -> usize {
        self.at
    }

    /// The part behind this one.
    fn behind(&self) -> Part {
        match self.part {
            Part::Header => Part::Board(1),
            Part::Board(number) if number < self.boards => Part::Board(number + 1),
            Part::Board(_) if self.acts > 0 => Part::Act(1),
            Part::Act(place) if place < self.acts => Part::Act(place + 1),
            _ => Part::End,
        }
    }

    fn byte(&mut self) -> io::Result<u8> {
        self.at += 1;
        self.bytes.next().unwrap_or_else(|| Err(self.damaged("the file ends before it")))
    }

    fn array<const N: usize>(&mut self) -> io::Result<[u8; N]> {
        let mut array = [0; N];
        for place in &mut array {
            *place = self.byte()?;
        }
        Ok(array)
    }

    /// What is wrong at the byte that was read last.
    fn damaged(&self, what: &str) -> io::Error {
        io::Error::other(format!("damaged at byte {}, {}: {what}", self.at, self.part))
    }

    fn left_over(&mut self) -> Option<io::Error> {
        self.at += 1;
        match self.bytes.next()? {
            Ok(_) => Some(self.damaged("it is left over")),
            Err(why) => Some(why),
        }
    }

    fn header(&mut self) -> io::Result<Piece> {
        let edition = u16::from_le_bytes(self.array()?);
        if edition != EDITION {
            return Err(self.damaged(&format!("edition {edition}, and {EDITION} is the one that is known")));
        }
        self.boards = u16::from_le_bytes(self.array()?);
        if !(1..=BOARDS_MAX).contains(&self.boards.into()) {
            return Err(self.damaged(&format!("{}, and a stack has 1 to {BOARDS_MAX}", counted(self.boards, "board"))));
        }
        self.acts = u32::from_le_bytes(self.array()?);
        Ok(Piece::Header { boards: self.boards, acts: self.acts })
    }

    fn board(&mut self, number: u16) -> io::Result<Piece> {
        let kind = self.byte()?;
        let kind = KINDS.get(usize::from(kind)).ok_or_else(|| self.damaged(&format!("kind {kind}, not 0 or 1")))?;
        let cells = self.byte()?;
        if !(5..=10).contains(&cells) {
            return Err(self.damaged(&format!("{}, not 5 to 10", counted(cells, "cell"))));
        }
        Ok(Piece::Board { number, kind, cells })
    }

    fn act(&mut self, place: u32) -> io::Result<Piece> {
        let kind = self.byte()?;
        if !(SAMPLE..=READING).contains(&kind) {
            return Err(self.damaged(&format!("kind {kind}, not {SAMPLE} to {READING}")));
        }
        let body = self.body(kind)?;
        let asked = match kind {
            SAMPLE => sample(&body),
            FRAME => Asked::Frame(body),
            _ => Asked::Reading,
        };
        let told = self.answer(kind)?;
        Ok(Piece::Act { place, act: Act { asked, told } })
    }

    fn body(&mut self, kind: u8) -> io::Result<Vec<u8>> {
        let length = self.byte()?;
        let fits = match kind {
            SAMPLE => length >= SAMPLE_HEAD && length % 2 == 0,
            FRAME => true,
            _ => length == 0,
        };
        if !fits {
            return Err(self.damaged(&format!("a body of {}, which kind {kind} has not", counted(length, "byte"))));
        }
        (0..length).map(|_| self.byte()).collect()
    }

    fn answer(&mut self, kind: u8) -> io::Result<Told> {
        match (self.byte()?, kind) {
            (0, SAMPLE) => Ok(Told::Sampled(self.byte()?, u16::from_le_bytes(self.array()?))),
            (0, FRAME) => Ok(Told::Replied(self.array()?)),
            (0, _) => Ok(Told::Read(self.array()?)),
            (number, _) => Ok(Told::Refused(number)),
        }
    }
}

/// A body that is long enough, with two bytes for each cell.
fn sample(body: &[u8]) -> Asked {
    let two = |at: usize| body.iter().skip(at).take(2).rev().fold(0, |n, byte| 256 * n + u32::from(*byte));
    let four = |at: usize| two(at + 2) << 16 | two(at);
    let byte = |at: usize| two(at) as u8;
    Asked::Sample {
        board: byte(0),
        readings: Readings { elapsed: four(1), load: byte(5).into(), thermistor: two(6), shunt: four(8) as i32 },
        cells: (usize::from(SAMPLE_HEAD)..body.len()).step_by(2).map(two).collect(),
    }
}

impl fmt::Display for Piece {
    fn fmt(&self, f: &mut fmt::Formatter<'_>) -> fmt::Result {
        match self {
            Piece::Header { boards, acts } => {
                write!(f, "edition {EDITION}: {}, {}", counted(*boards, "board"), counted(*acts, "act"))
            }
            Piece::Board { number, kind, cells } => write!(f, "board {number}: {kind}, {cells} cells"),
            Piece::Act { place, act: Act { asked, told } } => write!(f, "act {place}: {asked}; {told}"),
        }
    }
}

impl fmt::Display for Asked {
    fn fmt(&self, f: &mut fmt::Formatter<'_>) -> fmt::Result {
        match self {
            Asked::Sample { board, readings: Readings { elapsed, shunt, thermistor, load }, cells } => {
                let cells = or_none("mV of the cells", &listed(cells), "no cells");
                write!(f, "sample of board {board}: {elapsed} us, load {load}, thermistor {thermistor} mV, ")?;
                write!(f, "shunt {shunt} uV, {cells}")
            }
            Asked::Frame(bytes) => write!(f, "{}", frame(bytes)),
            Asked::Reading => write!(f, "reading"),
        }
    }
}

impl fmt::Display for Told {
    fn fmt(&self, f: &mut fmt::Formatter<'_>) -> fmt::Result {
        match *self {
            Told::Refused(number) => write!(f, "{}", refused(number, FIRST_OF_A_CHECK)),
            Told::Sampled(status, bled) => write!(f, "{}", sampled(status, bled)),
            Told::Replied(reply) => write!(f, "reply {}", listed(&reply)),
            Told::Read(numbers) => write!(f, "{}", read(numbers)),
        }
    }
}

fn listed<T: fmt::Display>(numbers: &[T]) -> String {
    numbers.iter().map(T::to_string).collect::<Vec<_>>().join(" ")
}

/// A list behind its name, or what is said where it is empty.
fn or_none(name: &str, list: &str, none: &str) -> String {
    if list.is_empty() {
        none.to_string()
    } else {
        format!("{name} {list}")
    }
}

fn frame(body: &[u8]) -> String {
    let sent = or_none("frame", &listed(body), "empty frame");
    let &[address, register, value, _] = body else { return sent };
    let board = address / 2;
    if address % 2 == 1 {
        format!("{sent}, {value} written to register {register} of board {board}")
    } else {
        format!("{sent}, a read of register {register} of board {board}")
    }
}

fn sampled(status: u8, bled: u16) -> String {
    let latched: Vec<_> = (0..).zip(FAULTS).filter(|(bit, _)| status >> bit & 1 == 1).map(|(_, fault)| fault).collect();
    let cells: Vec<_> = (1..=16).filter(|cell| bled >> (cell - 1) & 1 == 1).collect();
    let on = |bit: u8| if status & bit == 0 { "off" } else { "on" };
    format!(
        "status {status}: {}, CHG {}, DSG {}; {}",
        or_none("latched", &latched.join(" "), "nothing latched"),
        on(CHG_ON),
        on(DSG_ON),
        or_none("bled", &listed(&cells), "no cell bled")
    )
}

fn read([line, chg, dsg, board, cell]: [u8; 5]) -> String {
    let place = if board == 0 { "no cell flagged".to_string() } else { flagged(board, cell) };
    format!("fault line {line}, CHG {chg}, DSG {dsg}, {place}")
}

fn flagged(board: u8, cell: u8) -> String {
    format!("cell {cell} of board {board} flagged")
}

/// A refusal by its number, in words where it is below a bound.
fn refused(number: u8, bound: u8) -> String {
    let why = Refusal::from_number(number).filter(|_| number < bound);
    format!("refused with {number}, {}", why.map_or("which is no refusal's number", words::short))
}
