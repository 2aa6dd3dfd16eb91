//! The Rust face under test: reads and writes what drive.c does.
use adomvik::{Board, Checked, Latching, Plan, Reading, Readings, Recorder, Refusal, Sampled, RECORDER_BYTES, RECORD_BYTES};
use std::io::{self, BufRead, BufWriter, Write};

const RECORDS: usize = 18;
const PATTERN: u8 = 0xa5;
/// A number in a place that nothing was put into, as drive.c has it.
const BLANK: u32 = u32::from_le_bytes([PATTERN; 4]);
/// A record's padding: one byte in front of the tallies, and two at its end.
const PADDING: usize = 121;
const RECORD_END: usize = RECORD_BYTES - 2;
/// Bytes in front of a recording's memory and behind it, as drive.c has them.
const GUARD: usize = 13;

/// What each byte comes to in CRC-32.
const TABLE: [u32; 256] = {
    let mut table = [0; 256];
    let mut byte = 0;
    while byte < 256 {
        let mut crc = byte as u32;
        let mut bit = 0;
        while bit < 8 {
            crc = if crc & 1 == 1 { crc >> 1 ^ 0xedb8_8320 } else { crc >> 1 };
            bit += 1;
        }
        table[byte] = crc;
        byte += 1;
    }
    table
};

/// CRC-32, as zlib has it, gone on with.
fn crc<'a>(crc: u32, bytes: impl IntoIterator<Item = &'a u8>) -> u32 {
    bytes.into_iter().fold(crc, |crc, byte| crc >> 8 ^ TABLE[usize::from(crc as u8 ^ byte)])
}

/// Of the records, but for the padding in each.
fn checksum(row: &[Board]) -> u32 {
    !row.iter().fold(u32::MAX, |so_far, board| {
        let bytes = board.to_bytes();
        crc(so_far, bytes[..PADDING].iter().chain(&bytes[PADDING + 1..RECORD_END]))
    })
}

fn readings(x: &[i64]) -> Readings {
    Readings { elapsed: x[0] as u32, shunt: x[1] as i32, thermistor: x[2] as u32, load: x[3] as u32 }
}

fn words(x: &[i64]) -> Vec<u32> {
    x.iter().map(|&n| n as u32).collect()
}

/// A plan of four numbers: kind, cells, row, trigger.
fn plan(x: &[u32]) -> Plan {
    match x[0] {
        0 => Plan::stand_alone(x[1]),
        1 => Plan::host(x[1]),
        _ => Plan::garden(x[1], x[2], x[3]),
    }
}

fn plans(x: &[i64]) -> Vec<Plan> {
    words(x).chunks_exact(4).map(plan).collect()
}

fn bytes(x: &[i64]) -> Vec<u8> {
    x.iter().map(|&n| n as u8).collect()
}

fn number<T>(result: &Result<T, Refusal>) -> u8 {
    result.as_ref().err().map_or(0, |why| why.number())
}

fn told_sample(result: Result<adomvik::Sampled, Refusal>) -> String {
    let number = number(&result);
    // a place that nothing was put into, as drive.c has it
    let blank = u16::from_le_bytes([PATTERN; 2]);
    let (status, bled) = result.map_or((PATTERN, blank), |a| (a.status, a.bled));
    format!("{number} {status} {bled}")
}

fn told_reading(result: Result<adomvik::Reading, Refusal>) -> String {
    match result {
        Err(why) => format!("{0} {1} {1} {1} {1} {1}", why.number(), PATTERN),
        Ok(r) => {
            let (board, cell) = r.flagged.unwrap_or((0, 0));
            format!("0 {} {} {} {board} {cell}", r.line as u8, r.chg as u8, r.dsg as u8)
        }
    }
}

/// The fault line of a row. The number is 255 where its reading is not refused alike, or has another line.
fn told_up(row: &[Board]) -> String {
    let result = adomvik::up(row);
    let same = result.map(|up| up.line) == adomvik::read(row).map(|whole| whole.line);
    let (line, looked) = result.map_or((PATTERN, PATTERN), |up| (up.line as u8, up.looked));
    format!("{} {line} {looked}", if same { number(&result) } else { 255 })
}

/// A listing of a row with a buffer of so many entries: the number, how many were put there, and all its words.
fn told_listing(row: &[Board], board: u32, room: usize) -> String {
    let mut entries = vec![Latching { cause: BLANK, cell: BLANK, number: BLANK }; room];
    let result = adomvik::listing(row, board, &mut entries);
    let count = result.map_or(BLANK, |count| count as u32);
    let words: String = entries.iter().map(|e| format!(" {} {} {}", e.cause, e.cell, e.number)).collect();
    format!("{} {count}{words}", number(&result))
}

/// A check of the first bytes of a recording, so many, with another byte at a place among them: the number and the place.
fn told_check(row: &mut [Board], recording: &[u8], x: &[i64]) -> String {
    let mut lent = recording[..x[0] as usize].to_vec();
    if let Some(byte) = lent.get_mut(x[1] as usize) {
        *byte = x[2] as u8;
    }
    match adomvik::check(row, &lent) {
        Checked::Right => "0 0".to_string(),
        Checked::Wrong { place } => format!("0 {place}"),
        Checked::Refused { why, at } => format!("{} {at}", why.number()),
    }
}

/// What an act returned, from its number.
fn result<T>(number: i64, answer: T) -> Result<T, Refusal> {
    match number {
        0 => Ok(answer),
        _ => Err(Refusal::from_number(number as u8).expect("a refusal's number")),
    }
}

fn reading(x: &[i64]) -> Reading {
    let flagged = if x[3] == 0 { None } else { Some((x[3] as u8, x[4] as u8)) };
    Reading { line: x[0] == 1, chg: x[1] == 1, dsg: x[2] == 1, flagged }
}

/// A recorder, and between two guards the memory that it is lent.
struct Tape {
    recorder: Recorder,
    bytes: Vec<u8>,
}

impl Tape {
    fn new(length: i64) -> Tape {
        Tape { recorder: Recorder::from_bytes(&[0; RECORDER_BYTES]), bytes: vec![PATTERN; length as usize + 2 * GUARD] }
    }

    /// Any recorder: its length of memory and its fields.
    fn any(x: &[i64]) -> Tape {
        let mut fields = [0; RECORDER_BYTES];
        fields[..4].copy_from_slice(&(x[1] as u32).to_le_bytes());
        fields[4..6].copy_from_slice(&(x[2] as u16).to_le_bytes());
        (fields[6], fields[7]) = (x[3] as u8, x[4] as u8);
        Tape { recorder: Recorder::from_bytes(&fields), ..Tape::new(x[0]) }
    }

    fn begin(&mut self, plans: &[Plan]) -> String {
        let length = self.bytes.len() - 2 * GUARD;
        self.recorder = Recorder::begin(&mut self.bytes[GUARD..][..length], plans);
        self.told()
    }

    /// Has an act noted; what is returned must be the verdict that is kept.
    fn note(&mut self, noted: impl FnOnce(&mut Recorder, &mut [u8]) -> Result<(), Refusal>) -> String {
        let length = self.bytes.len() - 2 * GUARD;
        let verdict = noted(&mut self.recorder, &mut self.bytes[GUARD..][..length]);
        assert_eq!(verdict, self.recorder.verdict());
        self.told()
    }

    fn told(&self) -> String {
        let [a, b, c, d, e, f, stopped, verdict] = self.recorder.to_bytes();
        assert_eq!(u16::from_le_bytes([e, f]), self.recorder.acts());
        let (used, crc) = (u32::from_le_bytes([a, b, c, d]), !crc(u32::MAX, &self.bytes));
        format!("{verdict} {used} {} {stopped} {crc:08x}", self.recorder.acts())
    }

    /// A beginning, a note, or the memory; None where the letter is another's.
    fn act(&mut self, letter: u8, x: &[i64]) -> Option<String> {
        Some(match letter {
            b'M' => {
                *self = Tape::new(x[0]);
                self.begin(&plans(&x[1..]))
            }
            b's' => {
                let answer = result(x[5], Sampled { status: x[6] as u8, bled: x[7] as u16 });
                self.note(|recorder, memory| recorder.note_sample(memory, x[0] as u32, readings(&x[1..5]), &words(&x[8..]), answer))
            }
            b'f' => {
                let (reply, frame) = x[2..].split_at(x[1] as usize);
                self.note(|recorder, memory| recorder.note_frame(memory, &bytes(frame), &bytes(reply), result(x[0], ())))
            }
            b'r' => self.note(|recorder, memory| recorder.note_reading(memory, result(x[0], reading(&x[1..])))),
            b'o' => self.note(|recorder, _| recorder.note_other()),
            b'D' => format!("0 {}", self.bytes.iter().map(|b| format!("{b:02x}")).collect::<String>()),
            _ => return None,
        })
    }
}

fn act(row: &mut [Board], letter: u8, x: &[i64]) -> Option<String> {
    Some(match letter {
        b'O' => number(&adomvik::open(&mut row[..x[0] as usize], &words(&x[1..]))).to_string(),
        b'P' => number(&adomvik::open_plans(&mut row[..x[0] as usize], &plans(&x[1..]))).to_string(),
        b'S' => told_sample(adomvik::sample(&mut row[..x[0] as usize], x[1] as u32, readings(&x[2..6]), &words(&x[6..]))),
        b'B' => told_sample(row[x[0] as usize].sample(readings(&x[1..5]), &words(&x[5..]))),
        b'F' => {
            let mut reply = vec![PATTERN; x[1] as usize];
            let result = adomvik::frame(&mut row[..x[0] as usize], &bytes(&x[2..]), &mut reply);
            let space = if reply.is_empty() { "" } else { " " };
            let text: String = reply.iter().map(|b| format!("{b:02x}")).collect();
            format!("{}{space}{text}", number(&result))
        }
        b'R' => told_reading(adomvik::read(&row[..x[0] as usize])),
        b'U' => told_up(&row[..x[0] as usize]),
        b'L' => told_listing(&row[..x[0] as usize], x[1] as u32, x[2] as usize),
        b'W' => {
            let record: [u8; RECORD_BYTES] = bytes(&x[1..]).try_into().expect("a record's bytes");
            row[x[0] as usize] = Board::from_bytes(&record);
            return None;
        }
        _ => panic!("no such act"),
    })
}

fn main() -> io::Result<()> {
    let mut row = [Board::from_bytes(&[0; RECORD_BYTES]); RECORDS];
    let (mut tape, mut recording) = (Tape::new(0), Vec::new());
    let mut out = BufWriter::new(io::stdout().lock());
    for line in io::stdin().lock().lines() {
        let line = line?;
        let (letter, numbers) = (line.as_bytes()[0], line[1..].split_whitespace().map(|word| word.parse().expect("a number")));
        let numbers: Vec<i64> = numbers.collect();
        if letter == b'G' {
            tape = Tape::any(&numbers);
        } else if letter == b'H' {
            recording.truncate(numbers[0] as usize);
            recording.extend(bytes(&numbers[1..]));
        } else if letter == b'C' {
            let told = told_check(&mut row[..numbers[0] as usize], &recording, &numbers[1..]);
            writeln!(out, "{told} {:08x}", checksum(&row))?;
        } else if let Some(answer) = tape.act(letter, &numbers) {
            writeln!(out, "{answer}")?;
        } else if let Some(answer) = act(&mut row, letter, &numbers) {
            writeln!(out, "{answer} {:08x}", checksum(&row))?;
        }
    }
    out.flush()
}
