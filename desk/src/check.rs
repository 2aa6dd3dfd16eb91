//! Recordings from files, checked: of each what was read and that it is right, or how its first wrong act differs from what is right,
//! or why it cannot be read. The library judges; what it says of an act is put into words here.
use crate::show::{Act, Asked, Piece, Recording, Told};
use crate::words::{self, counted};
use adomvik::{Board, Checked, BOARDS_MAX, FRAME_BYTES, RECORD_BYTES};
use std::ffi::OsString;
use std::fs::File;
use std::io::{self, Read, Write};

/// Where the header has the number of acts.
const ACTS_AT: usize = 4;

/// Checks one file after the other, whatever is said of those before; whether all are right.
pub fn check(files: &[OsString]) -> io::Result<bool> {
    let (mut checker, mut out) = (Checker::new(), io::stdout().lock());
    let mut right = 0;
    for file in files {
        let (good, words) = checker.file(file).unwrap_or_else(|why| (false, why.to_string()));
        right += usize::from(good);
        writeln!(out, "{}: {words}", file.to_string_lossy())?;
    }
    if files.len() > 1 {
        writeln!(out, "{right} of {} are right", counted(files.len(), "recording"))?;
    }
    Ok(right == files.len())
}

/// The records that are lent for a check, and the bytes of a file, which is checked as a whole.
pub struct Checker {
    row: [Board; BOARDS_MAX],
    pub recording: Vec<u8>,
}

impl Checker {
    pub fn new() -> Checker {
        Checker { row: [Board::from_bytes(&[0; RECORD_BYTES]); BOARDS_MAX], recording: Vec::new() }
    }

    /// Whether a file is right, and what is said of it.
    fn file(&mut self, path: &OsString) -> io::Result<(bool, String)> {
        self.recording.clear();
        File::open(path)?.read_to_end(&mut self.recording)?;
        self.judged()
    }

    /// The same of the bytes that were read.
    pub fn judged(&mut self) -> io::Result<(bool, String)> {
        let told = adomvik::check(&mut self.row, &self.recording);
        let verdict = words::checked(told);
        Ok(match told {
            Checked::Right => (true, format!("{}: {verdict}", self.counts()?)),
            Checked::Wrong { place } => (false, format!("{}: {verdict}\n{}", self.counts()?, self.differs(place)?)),
            Checked::Refused { why, .. } => {
                (false, format!("cannot be read: no {}, {verdict}; {}", why.number(), self.damage()))
            }
        })
    }

    fn counts(&self) -> io::Result<String> {
        match Recording::new(self.recording.as_slice()).next() {
            Some(Ok(Piece::Header { boards, acts })) => {
                Ok(format!("{}, {}", counted(boards, "board"), counted(acts, "act")))
            }
            _ => Err(unknown()),
        }
    }

    /// What is said of it where it is shown.
    fn damage(&self) -> String {
        let shown = Recording::new(self.recording.as_slice()).find_map(Result::err);
        shown.unwrap_or_else(unknown).to_string()
    }

    /// The act at a place, the answer that is recorded, and the right one: with no more acts than those before it the recording is
    /// right, and leaves the stack on which the act is made once more.
    fn differs(&mut self, place: u32) -> io::Result<String> {
        let (behind, boards, Act { asked, told }) = self.find(place)?;
        let (header, _) = self.recording.split_first_chunk_mut::<{ ACTS_AT + 4 }>().ok_or_else(unknown)?;
        for (to, byte) in header.iter_mut().skip(ACTS_AT).zip((place - 1).to_le_bytes()) {
            *to = byte;
        }
        let before = self.recording.get(..behind).unwrap_or_default();
        if adomvik::check(&mut self.row, before) != Checked::Right {
            return Err(unknown());
        }
        let right = again(self.row.get_mut(..boards).unwrap_or_default(), &asked);
        Ok(format!("  act {place}: {asked}\n  recorded: {}\n  right: {}", told.exactly(), right.exactly()))
    }

    /// The act at a place, how many bytes lie before it, and how many boards there are.
    fn find(&self, place: u32) -> io::Result<(usize, usize, Act)> {
        let (mut pieces, mut boards) = (Recording::new(self.recording.as_slice()), 0);
        loop {
            let behind = pieces.read();
            match pieces.next().ok_or_else(unknown)?? {
                Piece::Header { .. } => {}
                Piece::Board { number, .. } => boards = number.into(),
                Piece::Act { place: found, act } if found == place => return Ok((behind, boards, act)),
                Piece::Act { .. } => {}
            }
        }
    }
}

/// Makes an act on a row; its answer.
fn again(row: &mut [Board], asked: &Asked) -> Told {
    match asked {
        Asked::Sample { board, readings, cells } => {
            adomvik::sample(row, (*board).into(), *readings, cells).map_or_else(Told::from, Told::from)
        }
        Asked::Frame(bytes) => {
            let mut reply = [0; FRAME_BYTES];
            adomvik::frame(row, bytes, &mut reply).map_or_else(Told::from, |()| Told::Replied(reply))
        }
        Asked::Reading => adomvik::read(row).map_or_else(Told::from, Told::from),
    }
}

/// Where the library and what shows a recording have read it differently, which they do not.
fn unknown() -> io::Error {
    io::Error::other("it is shown otherwise than it is checked")
}
