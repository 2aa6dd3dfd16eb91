//! Lines: input cut at its newlines, and a line taken apart into what it asks. Every line is of a form, or has a flaw.
//!
//! A form that a request brings is added in two places here: its case in [`Line`], and its letter in [`asked`]. The
//! compiler then names what else has to speak of it.
use adomvik::{Readings, FRAME_BYTES};

/// The most bytes of a line, its newline not counted.
pub const LONGEST_LINE: usize = 300_000;
/// The largest number, sign aside.
pub const LARGEST: u32 = 2_147_483_647;
/// The bytes that are searched for a newline at once.
const STRETCH: usize = 32;
/// A number that may be small enough has no more digits.
const MOST_DIGITS: usize = 10;
/// No line has more fields: each takes a space and a byte.
const MOST_FIELDS: usize = LONGEST_LINE / 2;

/// The kind of a board, and for a garden board its row of the device table and its trigger count.
#[derive(Clone, Copy)]
pub enum Kind {
    StandAlone,
    Host,
    Garden { row: u32, trigger: u32 },
}

/// A board that an opening asks for. Any numbers are well formed: the library decides.
#[derive(Clone, Copy)]
pub struct Wanted {
    pub kind: Kind,
    pub cells: u32,
}

/// What a well-formed line asks. Its lists lie in lent memory.
pub enum Line<'a> {
    /// `O` and cell counts, of stand-alone boards, or `X` and boards.
    Opening { boards: &'a [Wanted] },
    /// `S`: a sample of one board.
    Sample { board: u32, readings: Readings, cells: &'a [u32] },
    /// `F`, or `F@N` with another room: a frame, and the bytes that are lent for its reply.
    Frame { bytes: &'a [u8], room: usize },
    /// `R`: the whole-stack reading.
    Reading,
    /// `L`: the journal of one board, and how many entries are lent for it.
    Listing { board: u32, room: usize },
    /// `U`: is anything up?
    Up,
    /// `W`: a recording starts, into so many lent bytes.
    Recording { room: usize },
    /// `D`: the recording is shown.
    Shown,
}

impl Line<'_> {
    /// Whether it is an act: a day consists of these, and a recording has a verdict on each.
    pub fn is_act(&self) -> bool {
        match self {
            Line::Sample { .. } | Line::Frame { .. } | Line::Reading | Line::Listing { .. } | Line::Up => true,
            Line::Opening { .. } | Line::Recording { .. } | Line::Shown => false,
        }
    }
}

/// Why a line is malformed, and how many of its bytes were read before that showed.
pub struct Flaw {
    pub what: What,
    pub at: usize,
}

/// The rule of lines that is broken.
pub enum What {
    TooLong,
    Empty,
    NoLetter,
    NoField,
    NoSpace,
    NoEnd,
    NoNumber,
    LeadingZero,
    MinusZero,
    TooLarge,
    NoByte,
    NoBoard,
    NoSlash,
}

/// Memory for the lists of one line after another, lent once: it has room for the longest line.
pub struct Lent {
    numbers: Box<[u32]>,
    bytes: Box<[u8]>,
    boards: Box<[Wanted]>,
}

impl Lent {
    pub fn new() -> Lent {
        let none = Wanted { kind: Kind::StandAlone, cells: 0 };
        Lent {
            numbers: vec![0; MOST_FIELDS].into(),
            bytes: vec![0; MOST_FIELDS].into(),
            boards: vec![none; MOST_FIELDS].into(),
        }
    }
}

/// Takes a line apart: its letter, then what the letter's form has.
pub fn take_apart<'a>(line: &[u8], lent: &'a mut Lent) -> Result<Line<'a>, Flaw> {
    if line.len() > LONGEST_LINE {
        return Err(Flaw { what: What::TooLong, at: LONGEST_LINE });
    }
    let mut fields = Fields { line, at: 0 };
    asked(&mut fields, lent).map_err(|what| Flaw { what, at: fields.at })
}

fn asked<'a>(fields: &mut Fields, lent: &'a mut Lent) -> Result<Line<'a>, What> {
    match fields.letter()? {
        b'O' => Ok(Line::Opening { boards: fields.list(&mut lent.boards, Fields::count)? }),
        b'X' => Ok(Line::Opening { boards: fields.list(&mut lent.boards, Fields::board)? }),
        b'S' => fields.sample(&mut lent.numbers),
        b'F' => Ok(Line::Frame { room: fields.room()?, bytes: fields.list(&mut lent.bytes, Fields::byte)? }),
        b'R' => fields.nothing_more(Line::Reading),
        b'L' => {
            let (board, room) = (fields.number()?, fields.number()? as usize);
            fields.nothing_more(Line::Listing { board, room })
        }
        b'U' => fields.nothing_more(Line::Up),
        b'W' => {
            let room = fields.number()? as usize;
            fields.nothing_more(Line::Recording { room })
        }
        b'D' => fields.nothing_more(Line::Shown),
        _ => Err(What::NoLetter),
    }
}

/// A line and how far it is read: each field has its space in front.
struct Fields<'l> {
    line: &'l [u8],
    at: usize,
}

impl Fields<'_> {
    fn next(&self) -> Option<u8> {
        self.line.get(self.at).copied()
    }

    /// Reads on past a byte, if it is the next one.
    fn passes(&mut self, byte: u8) -> bool {
        let passed = self.next() == Some(byte);
        self.at += usize::from(passed);
        passed
    }

    fn letter(&mut self) -> Result<u8, What> {
        let letter = self.next().ok_or(What::Empty)?;
        self.at += 1;
        Ok(letter)
    }

    fn space(&mut self) -> Result<(), What> {
        match self.next() {
            Some(b' ') => {
                self.at += 1;
                Ok(())
            }
            None => Err(What::NoField),
            _ => Err(What::NoSpace),
        }
    }

    /// The digits of a number, as many as there are. Those of a number that is far too large may wrap round: it is refused by
    /// how many they are.
    fn digits(&mut self) -> Result<u32, What> {
        let (mut at, mut number) = (self.at, 0_u64);
        while let Some(digit @ b'0'..=b'9') = self.line.get(at) {
            number = number.wrapping_mul(10).wrapping_add((digit - b'0').into());
            at += 1;
        }
        let digits = at - self.at;
        if digits == 0 {
            return Err(What::NoNumber);
        }
        if digits > 1 && self.next() == Some(b'0') {
            return Err(What::LeadingZero);
        }
        if digits > MOST_DIGITS || number > LARGEST.into() {
            return Err(What::TooLarge);
        }
        self.at = at;
        Ok(number as u32)
    }

    #[inline]
    fn number(&mut self) -> Result<u32, What> {
        self.space()?;
        self.digits()
    }

    /// The one number that may have a minus sign.
    fn shunt(&mut self) -> Result<i32, What> {
        self.space()?;
        if !self.passes(b'-') {
            return Ok(self.digits()? as i32);
        }
        match self.digits()? {
            0 => Err(What::MinusZero),
            number => Ok(-(number as i32)),
        }
    }

    fn byte(&mut self) -> Result<u8, What> {
        u8::try_from(self.number()?).map_err(|_| What::NoByte)
    }

    /// A board of `O`: a stand-alone one, by its cell count.
    fn count(&mut self) -> Result<Wanted, What> {
        Ok(Wanted { kind: Kind::StandAlone, cells: self.number()? })
    }

    /// A board of `X`: the letter of its kind and its cell count, and behind slashes what else a garden board has.
    fn board(&mut self) -> Result<Wanted, What> {
        self.space()?;
        if self.passes(b's') {
            Ok(Wanted { cells: self.digits()?, kind: Kind::StandAlone })
        } else if self.passes(b'h') {
            Ok(Wanted { cells: self.digits()?, kind: Kind::Host })
        } else if self.passes(b'g') {
            Ok(Wanted { cells: self.digits()?, kind: Kind::Garden { row: self.slashed()?, trigger: self.slashed()? } })
        } else {
            Err(What::NoBoard)
        }
    }

    /// A number with a slash in front.
    fn slashed(&mut self) -> Result<u32, What> {
        if self.passes(b'/') {
            self.digits()
        } else {
            Err(What::NoSlash)
        }
    }

    /// The bytes that are lent for a frame's reply.
    fn room(&mut self) -> Result<usize, What> {
        if self.passes(b'@') {
            Ok(self.digits()? as usize)
        } else {
            Ok(FRAME_BYTES)
        }
    }

    // as part of a larger function it would keep its place in the line in memory
    #[inline(never)]
    fn sample<'a>(&mut self, lent: &'a mut [u32]) -> Result<Line<'a>, What> {
        let board = self.number()?;
        let elapsed = self.number()?;
        let load = self.number()?;
        let thermistor = self.number()?;
        let shunt = self.shunt()?;
        let readings = Readings { elapsed, shunt, thermistor, load };
        Ok(Line::Sample { board, readings, cells: self.list(lent, Self::number)? })
    }

    /// Fields of one form, to the end of the line.
    fn list<'a, T>(&mut self, lent: &'a mut [T], one: impl Fn(&mut Self) -> Result<T, What>) -> Result<&'a [T], What> {
        let mut count = 0;
        for place in lent.iter_mut() {
            if self.at == self.line.len() {
                break;
            }
            *place = one(self)?;
            count += 1;
        }
        self.nothing_more(lent.get(..count).unwrap_or_default())
    }

    fn nothing_more<T>(&self, asked: T) -> Result<T, What> {
        if self.at < self.line.len() {
            Err(What::NoEnd)
        } else {
            Ok(asked)
        }
    }
}

/// Cuts blocks of input into lines. Of a line that a block's end has cut it keeps the beginning, up to one byte more than a
/// line may have: that is enough to know that it is too long.
pub struct Cutter {
    kept: Vec<u8>,
}

impl Cutter {
    pub fn new() -> Cutter {
        Cutter { kept: Vec::with_capacity(LONGEST_LINE + 1) }
    }

    /// Hands on each line that ends in this block, without its newline, as long as more are wanted; what is left of the block.
    pub fn feed<'b>(&mut self, mut block: &'b [u8], mut each: impl FnMut(&[u8]) -> bool) -> &'b [u8] {
        while let Some((line, behind)) = first_line(block) {
            let more = if self.kept.is_empty() {
                each(line)
            } else {
                self.keep(line);
                let more = each(&self.kept);
                self.kept.clear();
                more
            };
            block = behind;
            if !more {
                return block;
            }
        }
        self.keep(block);
        &[]
    }

    /// Hands on a last line that lacks its newline; nothing follows the last newline.
    pub fn finish(&mut self, mut each: impl FnMut(&[u8])) {
        if !self.kept.is_empty() {
            each(&self.kept);
            self.kept.clear();
        }
    }

    fn keep(&mut self, piece: &[u8]) {
        let room = (LONGEST_LINE + 1).saturating_sub(self.kept.len());
        self.kept.extend_from_slice(piece.get(..room).unwrap_or(piece));
    }
}

/// The first line of a block and what is behind its newline. Whether a stretch has one is asked of all its bytes at once, which
/// the compiler makes a few instructions of.
fn first_line(block: &[u8]) -> Option<(&[u8], &[u8])> {
    let has_newline = |stretch: &[u8]| stretch.iter().fold(false, |found, byte| found | (*byte == b'\n'));
    let from = STRETCH * block.chunks_exact(STRETCH).take_while(|stretch| !has_newline(stretch)).count();
    let at = from + block.get(from..)?.iter().position(|byte| *byte == b'\n')?;
    Some((block.get(..at)?, block.get(at + 1..)?))
}
