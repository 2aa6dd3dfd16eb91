//! The workshop's lines under a fuzzer: any bytes as a session. It has one answer for each line, and a second for each act of a
//! recording; each is of a form of the page, a recording that is shown can be told in words and is right, the pieces that the input
//! comes in make no difference, and a person is told the same and more. The same bytes are no recording, mostly: telling them ends,
//! and where that finds them damaged, and only there, they are not checked.
#![allow(dead_code)]

#[path = "../../desk/src/acts.rs"]
mod acts;
#[path = "../../desk/src/check.rs"]
mod check;
#[path = "../../desk/src/lines.rs"]
mod lines;
#[path = "../../desk/src/print.rs"]
mod print;
#[path = "../../desk/src/session.rs"]
mod session;
#[path = "../../desk/src/show.rs"]
mod show;
#[path = "../../desk/src/words.rs"]
mod words;

use check::Checker;
use session::{Reader, Session};
use show::Recording;

/// The text of the answers, with the input cut into pieces of so many bytes.
fn answers(reader: Reader, input: &[u8], piece: usize) -> Vec<u8> {
    let (mut session, mut text) = (Session::new(reader), Vec::new());
    for mut left in input.chunks(piece) {
        while !left.is_empty() {
            left = session.feed(left, &mut text);
        }
    }
    session.finish(&mut text);
    text
}

/// Lines as the page has them: nothing follows the last newline.
fn lines_of(text: &[u8]) -> Vec<&[u8]> {
    let mut lines: Vec<_> = text.split(|byte| *byte == b'\n').collect();
    if lines.last().map_or(false, |last| last.is_empty()) {
        lines.pop();
    }
    lines
}

/// An answer's words with a # for each number, and the numbers.
fn shape(answer: &[u8]) -> (String, Vec<u32>) {
    let (mut words, mut numbers) = (Vec::new(), Vec::new());
    for word in std::str::from_utf8(answer).unwrap().split(' ') {
        words.push(if let Ok(number) = word.parse() {
            numbers.push(number);
            "#"
        } else {
            word
        });
    }
    (words.join(" "), numbers)
}

/// The numbers of a listing: how many entries, and for each its cause, its cell and its sample. Only OV and UV have a cell, and
/// entries come by their samples, those of one sample by their causes.
fn is_listing(numbers: &[u32]) -> bool {
    let Some((count, words)) = numbers.split_first() else { return false };
    let entries: Vec<_> = words.chunks_exact(3).collect();
    let place = |entry: &&[u32]| (entry[2], entry[0]);
    *count <= 128
        && words.len() == 3 * *count as usize
        && entries.iter().all(|entry| entry[0] <= 4 && entry[1] <= 10 && (entry[1] > 0) == (2..=3).contains(&entry[0]) && entry[2] > 0)
        && entries.windows(2).all(|pair| place(&pair[0]) < place(&pair[1]))
}

/// The bytes of hex: pairs of lower-case digits.
fn bytes_of(digits: &[u8]) -> Option<Vec<u8>> {
    let digit = |digit: &u8| b"0123456789abcdef".iter().position(|other| digit == other);
    let values: Vec<_> = digits.iter().map(digit).collect::<Option<_>>()?;
    (values.len() % 2 == 0).then(|| values.chunks(2).map(|pair| (16 * pair[0] + pair[1]) as u8).collect())
}

/// What `./workshop check` says of these bytes, and whether they are right. That they cannot be read is said exactly where they are
/// found damaged as they are told in words, and the two readers never disagree.
fn checked(bytes: &[u8]) -> (bool, String) {
    let mut checker = Checker::new();
    checker.recording.extend_from_slice(bytes);
    let (right, said) = checker.judged().expect("a recording is checked as it is shown");
    assert_eq!(Recording::new(bytes).any(|piece| piece.is_err()), said.starts_with("cannot be read: no 1"));
    assert_eq!(right, said.ends_with(": every answer is right"));
    (right, said)
}

fn is_answer(answer: &[u8]) -> bool {
    if let Some(digits) = answer.strip_prefix(b"hex ") {
        return bytes_of(digits).is_some_and(|recording| checked(&recording).0);
    }
    let (words, numbers) = shape(answer);
    match words.as_str() {
        "ok" => true,
        "no #" => (1..=15).contains(&numbers[0]),
        "rec #" => [0, 15, 16].contains(&numbers[0]),
        "st # bal #" => numbers[0] <= 255 && numbers[0] & 32 == 0 && numbers[1] < 1024,
        "re # # # #" => numbers.iter().all(|byte| *byte <= 255),
        listing if listing.starts_with("ls #") && listing.len() == 2 + 2 * numbers.len() => is_listing(&numbers),
        "up # #" => numbers[0] <= 1 && (1..=16).contains(&numbers[1]),
        "ln # chg # dsg # at # #" => numbers[..3].iter().all(|flag| *flag <= 1) && numbers[3] <= 16 && numbers[4] <= 10,
        _ => false,
    }
}

/// Whether each line has its answers: an act a second one from a `W` on that was answered before the stack's first act.
fn all_answered(asked: &[&[u8]], told: &[&[u8]]) -> bool {
    let (mut told, mut acted, mut recorded) = (told.iter(), false, false);
    let verdict = |answer: &&[u8]| answer.starts_with(b"rec ");
    for line in asked {
        let Some(answer) = told.next() else { return false };
        let act = line.first().map_or(false, |letter| b"SFRLU".contains(letter)) && *answer != b"no 12";
        if verdict(answer) != (line.starts_with(b"W") && !answer.starts_with(b"no ")) {
            return false;
        }
        (acted, recorded) = if *answer == b"ok" { (false, false) } else { (acted || act, recorded || verdict(answer) && !acted) };
        if act && recorded && !told.next().map_or(false, verdict) {
            return false;
        }
    }
    told.next().is_none()
}

#[no_mangle]
pub extern "C" fn LLVMFuzzerTestOneInput(data: *const u8, size: usize) -> i32 {
    // SAFETY: the fuzzer hands over so many bytes.
    let data: &[u8] = if size == 0 { &[] } else { unsafe { std::slice::from_raw_parts(data, size) } };
    let piece = 1 + usize::from(data.first().copied().unwrap_or(0));
    let whole = answers(Reader::Program, data, size + 1);
    assert_eq!(whole, answers(Reader::Program, data, piece));
    let (asked, told) = (lines_of(data), lines_of(&whole));
    assert!(all_answered(&asked, &told));
    assert!(told.iter().all(|answer| is_answer(answer)));
    assert!(Recording::new(data).filter(|piece| piece.is_err()).count() <= 1);
    checked(data);
    if !asked.contains(&&b"help"[..]) {
        let spoken = answers(Reader::Person, data, size + 1);
        let spoken = lines_of(&spoken);
        assert_eq!(told.len(), spoken.len());
        assert!(told.iter().zip(spoken).all(|(answer, said)| said.starts_with(answer)));
    }
    0
}
