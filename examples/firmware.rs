//! A firmware main loop over a stack of two boards, on a simulated board: it reads samples, drives two switch pins and answers
//! the host's frames, and records all of it; at the end it shows what latched on each board, and how much was recorded. What stands
//! in `sim` is what a real board has as hardware. firmware.c is the same in C.
use adomvik::{Latching, Plan, Reading, Readings, Recorder, Refusal, Row, CAUSE_OCD, CAUSE_OV, CAUSE_SCD, CAUSE_UV, JOURNAL_MAX};

const CELLS: [u32; 2] = [5, 6];
const TICKS: u32 = 16;
const RECORDING_BYTES: usize = 1024;

/// The simulated board.
mod sim {
    use adomvik::Readings;

    /// A short circuit in ticks 3 and 4, the load gone from tick 6 on; the top cell of board 2 too high from tick 7 to 13.
    pub fn read_sensors(tick: u32, board: u32, cells: &mut [u32]) -> Readings {
        cells.fill(3900);
        if let (2, 7..=13, Some(top)) = (board, tick, cells.last_mut()) {
            *top = 4200;
        }
        let shorted = tick == 3 || tick == 4;
        Readings { elapsed: 100_000, shunt: if shorted { 90_000 } else { 0 }, thermistor: 2_000, load: u32::from(tick < 6) }
    }

    /// The two switch pins.
    pub struct Pins(Option<(bool, bool)>);

    impl Pins {
        pub fn new() -> Pins {
            Pins(None)
        }

        pub fn drive(&mut self, tick: u32, chg: bool, dsg: bool) {
            if self.0 != Some((chg, dsg)) {
                println!("tick {tick}: chg {} dsg {}", u8::from(chg), u8::from(dsg));
            }
            self.0 = Some((chg, dsg));
        }
    }

    /// Frames from the host: a read of register 0, a wrong check byte, OV delay and level of board 2 staged, programmed, read back.
    pub fn receive(tick: u32) -> Option<[u8; 4]> {
        match tick {
            2 | 4 => Some([2, 0, 0, 214]),
            5 => Some([2, 0, 0, 215]),
            9 => Some([5, 6, 33, 89]),
            14 => Some([5, 11, 65, 151]),
            15 => Some([4, 6, 0, 213]),
            _ => None,
        }
    }

    pub fn send(tick: u32, reply: [u8; 4]) {
        println!("tick {tick}: reply {} {} {} {}", reply[0], reply[1], reply[2], reply[3]);
    }
}

/// The stack with a recorder beside it. The recording lies where it can be fetched at the end of the day.
struct Pack {
    stack: Row<2>,
    recorder: Recorder,
    recording: [u8; RECORDING_BYTES],
    full: bool,
}

impl Pack {
    fn open() -> Result<Pack, Refusal> {
        let (plans, mut recording) = (CELLS.map(Plan::stand_alone), [0; RECORDING_BYTES]);
        let stack = Row::open_plans(plans)?;
        let recorder = Recorder::begin(&mut recording, &plans);
        recorder.verdict()?;
        Ok(Pack { stack, recorder, recording, full: false })
    }

    /// Every board sampled, and then the stack as a whole.
    fn sample_all(&mut self, tick: u32) -> Result<Reading, Refusal> {
        let mut refused = None;
        for (board, &count) in (1..).zip(&CELLS) {
            let mut cells = [0; 10];
            let cells = &mut cells[..count as usize];
            let readings: Readings = sim::read_sensors(tick, board, cells);
            let answer = self.stack.sample(board, readings, cells);
            let verdict = self.recorder.note_sample(&mut self.recording, board, readings, cells, answer);
            self.noted(tick, verdict);
            refused = refused.or(answer.err());
        }
        refused.map_or(Ok(()), Err)?;
        let answer = self.stack.read();
        let verdict = self.recorder.note_reading(&mut self.recording, answer);
        self.noted(tick, verdict);
        answer
    }

    fn frame(&mut self, tick: u32, frame: [u8; 4]) -> Result<[u8; 4], Refusal> {
        let answer = self.stack.frame(&frame);
        let reply = answer.unwrap_or_default();
        let verdict = self.recorder.note_frame(&mut self.recording, &frame, &reply, answer.map(|_| ()));
        self.noted(tick, verdict);
        answer
    }

    /// An act stands whatever the recorder's verdict is; that the memory is full is said once.
    fn noted(&mut self, tick: u32, verdict: Result<(), Refusal>) {
        let full = verdict == Err(Refusal::RecordingRoom);
        if full && !self.full {
            println!("tick {tick}: the recording is full");
        }
        self.full |= full;
    }
}

fn name(cause: u32) -> &'static str {
    match cause {
        CAUSE_SCD => "SCD",
        CAUSE_OCD => "OCD",
        CAUSE_OV => "OV",
        CAUSE_UV => "UV",
        _ => "overtemperature",
    }
}

/// The journal of a board, oldest latching first.
fn show_journal(stack: &Row<2>, board: u32) -> Result<(), Refusal> {
    let mut entries = [Latching::default(); JOURNAL_MAX];
    let count = stack.listing(board, &mut entries)?;
    for Latching { cause, cell, number } in &entries[..count] {
        let at = if *cell > 0 { format!(", cell {cell},") } else { String::new() };
        println!("board {board}: {}{at} at sample {number}", name(*cause));
    }
    Ok(())
}

fn main() -> Result<(), Refusal> {
    let mut pack = Pack::open()?;
    let mut pins = sim::Pins::new();
    for tick in 0..TICKS {
        // both switches off where anything is refused
        let (chg, dsg) = pack.sample_all(tick).map_or((false, false), |whole| (whole.chg, whole.dsg));
        pins.drive(tick, chg, dsg);
        // a refused frame gets no reply: the host asks again
        match sim::receive(tick).map(|frame| pack.frame(tick, frame)) {
            Some(Ok(reply)) => sim::send(tick, reply),
            Some(Err(why)) => println!("tick {tick}: frame refused, {}", why.number()),
            None => (),
        }
    }
    for (board, _) in (1..).zip(&CELLS) {
        show_journal(&pack.stack, board)?;
    }
    println!("recorded {} acts in {} bytes", pack.recorder.acts(), pack.recorder.recording(&pack.recording).len());
    Ok(())
}
