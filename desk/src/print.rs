//! Printing: an answer as the page has it, without its newline.
use crate::acts::Answer;
use adomvik::{Reading, Refusal};

/// The bytes that go out.
pub type Text = Vec<u8>;

/// An accepted line's answer.
pub fn answer(text: &mut Text, answer: &Answer) {
    match answer {
        Answer::Opened => words(text, "ok"),
        Answer::Sampled(told) => {
            words(text, "st ");
            number(text, told.status.into());
            words(text, " bal ");
            number(text, told.bled.into());
        }
        Answer::Replied(reply) => {
            words(text, "re");
            for byte in reply {
                field(text, (*byte).into());
            }
        }
        Answer::Read(told) => reading(text, told),
        Answer::Listed(entries) => {
            words(text, "ls");
            field(text, entries.len() as u32);
            for entry in *entries {
                field(text, entry.cause);
                field(text, entry.cell);
                field(text, entry.number);
            }
        }
        Answer::Up(told) => {
            words(text, "up");
            field(text, told.line.into());
            field(text, told.looked.into());
        }
        Answer::Recording(told) => verdict(text, *told),
        Answer::Shown(recording) => {
            words(text, "hex ");
            for byte in *recording {
                text.extend_from_slice(&[hex_digit(byte / 16), hex_digit(byte % 16)]);
            }
        }
    }
}

fn hex_digit(n: u8) -> u8 {
    if n < 10 {
        b'0' + n
    } else {
        b'a' + n - 10
    }
}

fn reading(text: &mut Text, told: &Reading) {
    let (board, cell) = told.flagged.unwrap_or((0, 0));
    words(text, "ln ");
    number(text, told.line.into());
    words(text, " chg ");
    number(text, told.chg.into());
    words(text, " dsg ");
    number(text, told.dsg.into());
    words(text, " at");
    field(text, board.into());
    field(text, cell.into());
}

/// What the recorder says of an act, or of a recording that starts.
pub fn verdict(text: &mut Text, told: Result<(), Refusal>) {
    words(text, "rec ");
    number(text, told.map_or_else(|refused| refused.number().into(), |()| 0));
}

/// A refusal's number.
pub fn refusal(text: &mut Text, refused: u8) {
    words(text, "no ");
    number(text, refused.into());
}

pub fn words(text: &mut Text, words: &str) {
    text.extend_from_slice(words.as_bytes());
}

fn field(text: &mut Text, n: u32) {
    text.push(b' ');
    number(text, n);
}

/// In decimal; ten digits are enough for any number here.
fn number(text: &mut Text, n: u32) {
    let (mut digits, mut left, mut count) = ([0; 10], n, 0);
    for digit in digits.iter_mut().rev() {
        *digit = b'0' + (left % 10) as u8;
        left /= 10;
        count += 1;
        if left == 0 {
            break;
        }
    }
    text.extend_from_slice(digits.get(digits.len() - count..).unwrap_or_default());
}
