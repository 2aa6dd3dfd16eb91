//! What each line does: the desk lends its stack to the library, for a frame its reply buffer too, for a listing its entries, for a
//! recording its memory, and keeps what comes.
use crate::lines::{Kind, Line, Wanted};
use adomvik::{Board, Latching, Plan, Reading, Readings, Recorder, Refusal, Sampled};
use adomvik::{BOARDS_MAX, FRAME_BYTES, JOURNAL_MAX, RECORD_BYTES};

/// The most bytes that are really lent for a reply or a recording. The one takes the first four, the other 65,535 at most, so that
/// more make no difference.
const MOST_LENT: usize = 65_536;
/// The most plans that are really handed over. One is too many for a stack, so that more make no difference.
const MOST_PLANS: usize = BOARDS_MAX + 1;

/// What an accepted line is answered with.
pub enum Answer<'a> {
    Opened,
    Sampled(Sampled),
    Replied([u8; FRAME_BYTES]),
    Read(Reading),
    Listed(&'a [Latching]),
    Up(adomvik::Line),
    Recording(Result<(), Refusal>),
    Shown(&'a [u8]),
}

/// Hands on the plans of boards, but of no more than are too many.
fn with_plans<T>(wanted: &[Wanted], act: impl FnOnce(&[Plan]) -> T) -> T {
    let mut plans = [Plan::stand_alone(0); MOST_PLANS];
    for (plan, board) in plans.iter_mut().zip(wanted) {
        *plan = match board.kind {
            Kind::StandAlone => Plan::stand_alone(board.cells),
            Kind::Host => Plan::host(board.cells),
            Kind::Garden { row, trigger } => Plan::garden(board.cells, row, trigger),
        };
    }
    act(plans.get(..wanted.len()).unwrap_or(&plans))
}

/// The memory of a recording, and the recorder of the last one that was asked for since the stack was opened.
struct Tape {
    memory: Box<[u8]>,
    room: usize,
    recorder: Option<Recorder>,
}

impl Tape {
    fn begin(&mut self, room: usize, plans: &[Plan]) -> Result<(), Refusal> {
        self.room = room.min(MOST_LENT);
        let recorder = Recorder::begin(self.memory.get_mut(..self.room).unwrap_or_default(), plans);
        self.recorder = Some(recorder);
        recorder.verdict()
    }

    /// Has an act noted, where a recording was asked for. The verdict stays with the recorder.
    fn note(&mut self, noted: impl FnOnce(&mut Recorder, &mut [u8]) -> Result<(), Refusal>) {
        if let Some(recorder) = &mut self.recorder {
            let _ = noted(recorder, self.memory.get_mut(..self.room).unwrap_or_default());
        }
    }

    fn recording(&self) -> &[u8] {
        self.recorder.map_or(&[], |recorder| recorder.recording(&self.memory))
    }
}

/// The desk: places for sixteen records, of which the stack has the first few, with what was asked for as it was opened and whether
/// it has had an act since; a reply buffer, entries for a listing, and a tape for a recording.
pub struct Desk {
    boards: [Board; BOARDS_MAX],
    opened: usize,
    asked: [Wanted; BOARDS_MAX],
    acted: bool,
    reply: Vec<u8>,
    entries: [Latching; JOURNAL_MAX],
    tape: Tape,
}

impl Desk {
    /// Before the first good opening the stack is a row of no boards, which the library refuses by itself.
    pub fn new() -> Desk {
        let none = Board::from_bytes(&[0; RECORD_BYTES]);
        Desk {
            boards: [none; BOARDS_MAX],
            opened: 0,
            asked: [Wanted { kind: Kind::StandAlone, cells: 0 }; BOARDS_MAX],
            acted: false,
            reply: vec![0; MOST_LENT],
            entries: [Latching::default(); JOURNAL_MAX],
            tape: Tape { memory: vec![0; MOST_LENT].into(), room: 0, recorder: None },
        }
    }

    /// Does what a line asks. A refused line has changed nothing, but that a recording has it noted.
    pub fn act(&mut self, line: &Line) -> Result<Answer<'_>, Refusal> {
        self.acted |= line.is_act() && self.opened > 0;
        match line {
            Line::Opening { boards } => self.open(boards),
            Line::Sample { board, readings, cells } => self.sample(*board, *readings, cells),
            Line::Frame { bytes, room } => self.frame(bytes, *room),
            Line::Reading => self.read(),
            Line::Listing { board, room } => self.list(*board, *room),
            Line::Up => self.up(),
            Line::Recording { room } => self.record(*room),
            Line::Shown => self.show(),
        }
    }

    /// The recorder's verdict on the act that was just made, where a recording was asked for.
    pub fn noted(&self, line: &Line) -> Option<Result<(), Refusal>> {
        let recorder = self.tape.recorder.filter(|_| self.acted && line.is_act())?;
        Some(recorder.verdict())
    }

    /// The records of the stack that is open.
    fn row(&mut self) -> &mut [Board] {
        self.boards.get_mut(..self.opened).unwrap_or_default()
    }

    /// As many places are lent as boards are asked for, or all where they are not enough.
    fn open(&mut self, wanted: &[Wanted]) -> Result<Answer<'_>, Refusal> {
        let boards = wanted.len().min(BOARDS_MAX);
        with_plans(wanted, |plans| adomvik::open_plans(self.boards.get_mut(..boards).unwrap_or_default(), plans))?;
        (self.opened, self.acted, self.tape.recorder) = (boards, false, None);
        for (kept, board) in self.asked.iter_mut().zip(wanted) {
            *kept = *board;
        }
        Ok(Answer::Opened)
    }

    fn sample(&mut self, board: u32, readings: Readings, cells: &[u32]) -> Result<Answer<'_>, Refusal> {
        let answer = adomvik::sample(self.row(), board, readings, cells);
        self.tape.note(|recorder, memory| recorder.note_sample(memory, board, readings, cells, answer));
        answer.map(Answer::Sampled)
    }

    fn frame(&mut self, bytes: &[u8], room: usize) -> Result<Answer<'_>, Refusal> {
        let row = self.boards.get_mut(..self.opened).unwrap_or_default();
        let lent = self.reply.get_mut(..room.min(MOST_LENT)).unwrap_or_default();
        let answer = adomvik::frame(row, bytes, lent);
        self.tape.note(|recorder, memory| recorder.note_frame(memory, bytes, lent, answer));
        answer?;
        let mut reply = [0; FRAME_BYTES];
        for (byte, given) in reply.iter_mut().zip(lent) {
            *byte = *given;
        }
        Ok(Answer::Replied(reply))
    }

    fn read(&mut self) -> Result<Answer<'_>, Refusal> {
        let answer = adomvik::read(self.row());
        self.tape.note(|recorder, memory| recorder.note_reading(memory, answer));
        answer.map(Answer::Read)
    }

    /// A journal has at most 128 entries, so that more are never lent.
    fn list(&mut self, board: u32, room: usize) -> Result<Answer<'_>, Refusal> {
        self.tape.note(|recorder, _| recorder.note_other());
        let row = self.boards.get(..self.opened).unwrap_or_default();
        let lent = self.entries.get_mut(..room.min(JOURNAL_MAX)).unwrap_or_default();
        let count = adomvik::listing(row, board, lent)?;
        Ok(Answer::Listed(self.entries.get(..count).unwrap_or_default()))
    }

    fn up(&mut self) -> Result<Answer<'_>, Refusal> {
        self.tape.note(|recorder, _| recorder.note_other());
        adomvik::up(self.row()).map(Answer::Up)
    }

    /// A recording starts before the first act of its stack or not at all: its beginning would be missing. That there is no stack
    /// is the library's to say.
    fn record(&mut self, room: usize) -> Result<Answer<'_>, Refusal> {
        if self.acted {
            return Ok(Answer::Recording(Err(Refusal::NotRecordable)));
        }
        let asked = self.asked.get(..self.opened).unwrap_or_default();
        match with_plans(asked, |plans| self.tape.begin(room, plans)) {
            Err(Refusal::BadRow) => Err(Refusal::BadRow),
            verdict => Ok(Answer::Recording(verdict)),
        }
    }

    fn show(&self) -> Result<Answer<'_>, Refusal> {
        match self.recording() {
            [] => Err(Refusal::NotRecordable),
            recording => Ok(Answer::Shown(recording)),
        }
    }

    /// The bytes that are recorded; none where there is no recording.
    pub fn recording(&self) -> &[u8] {
        self.tape.recording()
    }

    /// The bytes that are lent for the recording.
    pub fn recording_room(&self) -> usize {
        self.tape.room
    }

    /// The boards of the stack that is open, as they were asked for.
    pub fn stack(&self) -> &[Wanted] {
        self.asked.get(..self.opened).unwrap_or_default()
    }

    /// How many entries the journal of a board has.
    pub fn latchings(&self, board: u32) -> Option<usize> {
        let row = self.boards.get(..self.opened)?;
        adomvik::listing(row, board, &mut [Latching::default(); JOURNAL_MAX]).ok()
    }

    /// The staged OCD and SCD levels of a board in mV: registers 9 and 10, at places 14 and 15 of its record.
    pub fn staged_levels(&self, board: u8) -> Option<(u32, u32)> {
        let [.., over, short] = *self.boards.get(usize::from(board).checked_sub(1)?)?.to_bytes().first_chunk::<16>()?;
        Some((10 + 5 * u32::from(over % 16), 60 + 5 * u32::from(short % 16)))
    }

    /// The check byte that the library takes for a frame's first three bytes, tried on a copy of the stack.
    pub fn right_check(&self, address: u8, register: u8, value: u8) -> Option<u8> {
        (0..=u8::MAX).find(|check| {
            let mut boards = self.boards;
            let row = boards.get_mut(..self.opened).unwrap_or_default();
            let mut reply = [0; FRAME_BYTES];
            adomvik::frame(row, &[address, register, value, *check], &mut reply) != Err(Refusal::CheckByte)
        })
    }
}
