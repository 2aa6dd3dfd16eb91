//! A session: blocks of input in, the text of the answers out.
use crate::acts::{Answer, Desk};
use crate::lines::{take_apart, Cutter, Lent, Line};
use crate::print::{self, Text};
use crate::words;

/// The number of a malformed line. It is the program's own: the library never sees such a line.
const MALFORMED: u8 = 12;
/// So many bytes of text are given out before more lines are answered: an answer is far longer than the line that asks for it.
const ENOUGH: usize = 65_536;

/// Who reads the answers.
#[derive(Clone, Copy, PartialEq, Eq)]
pub enum Reader {
    /// Another program: the page's answers to the letter.
    Program,
    /// A person at the desk: each refusal in words behind its number, each listing, fault line and recording in words, and a word
    /// on `help`.
    Person,
}

pub struct Session {
    cutter: Cutter,
    answers: Answers,
}

impl Session {
    pub fn new(reader: Reader) -> Session {
        Session { cutter: Cutter::new(), answers: Answers { lent: Lent::new(), desk: Desk::new(), reader } }
    }

    /// Answers the lines that end in this block, until there is enough text; what is left of the block.
    pub fn feed<'b>(&mut self, block: &'b [u8], text: &mut Text) -> &'b [u8] {
        let answers = &mut self.answers;
        self.cutter.feed(block, |line| {
            answers.line(line, text);
            text.len() < ENOUGH
        })
    }

    /// Answers a last line that lacks its newline.
    pub fn finish(&mut self, text: &mut Text) {
        let answers = &mut self.answers;
        self.cutter.finish(|line| answers.line(line, text));
    }
}

struct Answers {
    lent: Lent,
    desk: Desk,
    reader: Reader,
}

impl Answers {
    fn line(&mut self, line: &[u8], text: &mut Text) {
        let told = self.reader == Reader::Person;
        if told && words::asks_help(line) {
            return print::words(text, words::HELP);
        }
        match take_apart(line, &mut self.lent) {
            Err(flaw) => {
                print::refusal(text, MALFORMED);
                end(text, told.then(|| words::flaw(line, &flaw)));
            }
            Ok(asked) => {
                answer(&mut self.desk, &asked, told, text);
                verdict(&self.desk, &asked, told, text);
            }
        }
    }
}

/// Does what a line asks, and answers it.
fn answer(desk: &mut Desk, asked: &Line, told: bool, text: &mut Text) {
    let words = match desk.act(asked) {
        Ok(answer) => {
            print::answer(text, &answer);
            match answer {
                Answer::Recording(Err(refused)) if told => Some(words::unrecorded(refused, asked, desk)),
                answer if told => words::answer(&answer),
                _ => None,
            }
        }
        Err(refused) => {
            print::refusal(text, refused.number());
            told.then(|| words::refusal(refused, asked, desk))
        }
    };
    end(text, words);
}

/// A line of its own on an act that was to be recorded.
fn verdict(desk: &Desk, asked: &Line, told: bool, text: &mut Text) {
    let Some(verdict) = desk.noted(asked) else { return };
    print::verdict(text, verdict);
    end(text, verdict.err().filter(|_| told).map(|refused| words::unrecorded(refused, asked, desk)));
}

/// Words for a person, if there are any, and the line's end.
fn end(text: &mut Text, words: Option<String>) {
    if let Some(words) = words {
        print::words(text, "  ");
        print::words(text, &words);
    }
    text.push(b'\n');
}
