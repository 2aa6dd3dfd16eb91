//! The mechanic's desk: lines from standard input, their answers on standard output; or a day recorded from a file, or a recording
//! shown, or recordings checked. `./workshop` starts it.
#![forbid(unsafe_code)]

mod acts;
mod check;
mod lines;
mod print;
mod record;
mod session;
mod show;
mod words;

use print::Text;
use session::{Reader, Session};
use std::env;
use std::ffi::OsString;
use std::io::{self, Read, Write};
use std::process::ExitCode;

/// The bytes that are read at once.
const BLOCK: usize = 65_536;

/// Gives out what was said so far.
fn give(out: &mut impl Write, text: &mut Text) -> io::Result<()> {
    out.write_all(text)?;
    text.clear();
    out.flush()
}

/// Answers before it reads on, so that whoever waits for an answer gets it.
fn run(reader: Reader) -> io::Result<()> {
    let (mut input, mut out) = (io::stdin().lock(), io::stdout().lock());
    let mut session = Session::new(reader);
    let (mut block, mut text) = (vec![0; BLOCK], Text::new());
    let (greeting, prompt, farewell) = match reader {
        Reader::Person => (words::GREETING, words::PROMPT, "\n"),
        Reader::Program => ("", "", ""),
    };
    print::words(&mut text, greeting);
    let ended = loop {
        print::words(&mut text, prompt);
        give(&mut out, &mut text)?;
        match input.read(&mut block) {
            Ok(0) => break Ok(()),
            Ok(taken) => {
                let mut left = block.get(..taken).unwrap_or_default();
                while !left.is_empty() {
                    left = session.feed(left, &mut text);
                    give(&mut out, &mut text)?;
                }
            }
            Err(why) if why.kind() == io::ErrorKind::Interrupted => {}
            Err(why) => break Err(why),
        }
    };
    session.finish(&mut text);
    print::words(&mut text, farewell);
    give(&mut out, &mut text).and(ended)
}

/// `--desk` says that a person sits at a terminal. Whether all is well: it is not where a recording that was checked is not right.
fn asked(words: &[OsString]) -> io::Result<bool> {
    match words {
        [] => run(Reader::Program).map(|()| true),
        [desk] if desk == "--desk" => run(Reader::Person).map(|()| true),
        [record, day, recording] if record == "record" => {
            record::record(day.as_ref(), recording.as_ref()).map(|()| true)
        }
        [show, recording] if show == "show" => show::show(recording.as_ref()).map(|()| true),
        [check, files @ ..] if check == "check" && !files.is_empty() => check::check(files),
        _ => Err(io::Error::other("use: workshop [--desk | record DAY.txt DAY.rec | show DAY.rec | check DAY.rec..]")),
    }
}

fn main() -> ExitCode {
    match asked(&env::args_os().skip(1).collect::<Vec<_>>()) {
        Ok(true) => ExitCode::SUCCESS,
        Ok(false) => ExitCode::FAILURE,
        Err(why) => {
            // that nobody hears any more is nothing to speak of, and perhaps nobody hears this either
            if why.kind() != io::ErrorKind::BrokenPipe {
                let _ = writeln!(io::stderr(), "workshop: {why}");
            }
            ExitCode::FAILURE
        }
    }
}
