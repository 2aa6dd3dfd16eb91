//! A day from a file: its lines are played on a desk, and its recording goes to another file. What was not recorded is said.
use crate::acts::{Answer, Desk};
use crate::give;
use crate::lines::{take_apart, Cutter, Flaw, Lent, Line};
use crate::print::{self, Text};
use crate::words::{self, counted, named};
use adomvik::{Refusal, RECORDING_MAX};
use std::fs::{self, File};
use std::io::{self, Read, Write};
use std::path::Path;

/// The bytes that are played before what was said of their lines is given out.
const BLOCK: u64 = 4_096;
const BEGINS: &str = "a day begins with an opening, such as O 5 6 or X s5 h6";

/// Plays the lines of a file and writes their recording to another, which is not touched where there is none.
pub fn record(from: &Path, to: &Path) -> io::Result<()> {
    let of_day = |why| named(from, why);
    let input = File::open(from).map_err(of_day)?;
    if fs::canonicalize(from).ok() == fs::canonicalize(to).ok() {
        return Err(of_day(io::Error::other("the recording would go over the day itself")));
    }
    let (mut player, mut block, mut out) = (Player::new(), Vec::new(), io::stdout().lock());
    while player.day.goes_on() && (&input).take(BLOCK).read_to_end(&mut block).map_err(of_day)? > 0 {
        player.feed(&block);
        block.clear();
        give(&mut out, &mut player.day.said)?;
    }
    let mut day = player.finish();
    give(&mut out, &mut day.said)?;
    day.begun().map_err(|why| of_day(io::Error::other(why)))?;
    fs::write(to, day.desk.recording()).map_err(|why| named(to, why))?;
    writeln!(out, "{}: {}", to.display(), day.counts())
}

/// Blocks of the file in, as long as the day goes on.
struct Player {
    cutter: Cutter,
    lent: Lent,
    day: Day,
}

impl Player {
    fn new() -> Player {
        Player { cutter: Cutter::new(), lent: Lent::new(), day: Day::new() }
    }

    fn feed(&mut self, block: &[u8]) {
        let Player { cutter, lent, day } = self;
        cutter.feed(block, |line| {
            day.line(line, take_apart(line, lent));
            day.goes_on()
        });
    }

    fn finish(self) -> Day {
        let Player { mut cutter, mut lent, mut day } = self;
        if day.goes_on() {
            cutter.finish(|line| day.line(line, take_apart(line, &mut lent)));
        }
        day
    }
}

/// How far a day has come: before its opening, begun, over by another opening; or why it is none.
enum Course {
    Awaited,
    Begun,
    Over,
    None(String),
}

/// A day as it is played, how many of its lines there were of each kind, and what is said of them.
struct Day {
    desk: Desk,
    course: Course,
    lines: usize,
    recorded: usize,
    not_recordable: usize,
    no_room: usize,
    no_acts: usize,
    said: Text,
}

impl Day {
    fn new() -> Day {
        let (desk, course, said) = (Desk::new(), Course::Awaited, Text::new());
        Day { desk, course, lines: 0, recorded: 0, not_recordable: 0, no_room: 0, no_acts: 0, said }
    }

    fn goes_on(&self) -> bool {
        matches!(self.course, Course::Awaited | Course::Begun)
    }

    /// Whether there is a recording, or why not.
    fn begun(&self) -> Result<(), String> {
        match &self.course {
            Course::Awaited => Err(format!("it has no line, and {BEGINS}")),
            Course::None(why) => Err(format!("line 1: {why}")),
            Course::Begun | Course::Over => Ok(()),
        }
    }

    fn line(&mut self, line: &[u8], asked: Result<Line, Flaw>) {
        self.lines += 1;
        if let Course::Awaited = self.course {
            self.course = self.begin(asked.ok()).map_or_else(Course::None, |()| Course::Begun);
            return;
        }
        match asked {
            Err(flaw) => self.no_act(&words::flaw(line, &flaw)),
            Ok(Line::Recording { .. }) => self.no_act("W is no part of a day, which is recorded from its opening on"),
            Ok(Line::Shown) => self.no_act("D is no part of a day"),
            Ok(opening @ Line::Opening { .. }) => self.open_again(&opening),
            Ok(act) => self.act(&act),
        }
    }

    /// The first line opens a stack, and the recording begins there.
    fn begin(&mut self, asked: Option<Line>) -> Result<(), String> {
        let opening = asked.filter(|line| matches!(line, Line::Opening { .. })).ok_or(BEGINS)?;
        if let Err(refused) = self.desk.act(&opening) {
            return Err(words::refusal(refused, &opening, &self.desk));
        }
        let recording = Line::Recording { room: RECORDING_MAX };
        match self.desk.act(&recording) {
            Ok(Answer::Recording(Err(refused))) => Err(words::unrecorded(refused, &recording, &self.desk)),
            _ => Ok(()),
        }
    }

    /// Another opening is tried on another desk: a good one would end the recording on this one.
    fn open_again(&mut self, opening: &Line) {
        if let Err(refused) = Desk::new().act(opening) {
            self.no_act(&words::refusal(refused, opening, &self.desk));
        } else {
            self.say("another stack is opened, and the day ends here");
            self.course = Course::Over;
        }
    }

    /// What an act is answered is in the recording; only what is not is said.
    fn act(&mut self, act: &Line) {
        let _ = self.desk.act(act);
        let Some(Err(refused)) = self.desk.noted(act) else {
            self.recorded += 1;
            return;
        };
        if refused == Refusal::RecordingRoom {
            self.no_room += 1;
        } else {
            self.not_recordable += 1;
        }
        let why = words::unrecorded(refused, act, &self.desk);
        self.say(&format!("rec {}, {why}", refused.number()));
    }

    fn no_act(&mut self, why: &str) {
        self.no_acts += 1;
        self.say(&format!("no act: {why}"));
    }

    fn say(&mut self, what: &str) {
        print::words(&mut self.said, &format!("line {}: {what}\n", self.lines));
    }

    fn counts(&self) -> String {
        let Day { recorded, not_recordable, no_room, no_acts, .. } = self;
        let acts = counted(recorded + not_recordable + no_room, "act");
        let bytes = counted(self.desk.recording().len(), "byte");
        let others = counted(*no_acts, "other line");
        format!("{recorded} of {acts} recorded, in {bytes}; {not_recordable} not recordable, {no_room} without room; {others}")
    }
}
