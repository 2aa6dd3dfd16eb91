//! A program without a system that uses every act of the Rust face. Its panic handler calls what nobody has, so it links only
//! if no panic can be reached.
#![no_std]
#![no_main]
use adomvik::{Board, Checked, Latching, Plan, Readings, Recorder, Row, RECORDER_BYTES, RECORD_BYTES};
use core::hint::black_box;

extern "C" {
    fn a_panic_can_be_reached() -> !;
}

#[panic_handler]
fn panic(_: &core::panic::PanicInfo) -> ! {
    unsafe { a_panic_can_be_reached() }
}

/// Rust's own core was compiled to unwind, and names this; nothing here does.
#[no_mangle]
extern "C" fn rust_eh_personality() {}

#[no_mangle]
pub extern "C" fn _start() -> ! {
    let readings = black_box(Readings { elapsed: 1_000, shunt: 0, thermistor: 2_000, load: 0 });
    if let Ok(mut row) = Row::open(black_box([5, 6])) {
        let _ = black_box(row.sample(black_box(1), readings, black_box(&[3_900; 5])));
        let _ = black_box(row.frame(black_box(&[2, 0, 0, 214])));
        let _ = black_box(row.read().map_err(|why| why.number()));
        let _ = black_box(row.up().map_err(|why| why.number()));
        let mut entries = [Latching { cause: 0, cell: 0, number: 0 }; 3];
        let _ = black_box(row.listing(black_box(1), black_box(&mut entries)));
        let _ = black_box(row.boards()[0].to_bytes());
    }
    let plans = [Plan::stand_alone(black_box(5)), Plan::host(black_box(6)), Plan::garden(black_box(3), black_box(0), black_box(1))];
    let _ = black_box(Row::open_plans(plans).map_err(|why| why.number()));
    let mut board = Board::from_bytes(black_box(&[0; RECORD_BYTES]));
    let _ = black_box(board.sample(readings, black_box(&[])));
    let mut reply = [0; 3];
    let answer = black_box(adomvik::frame(black_box(&mut []), &[], &mut reply));
    let mut memory = [0; 99];
    let mut recorder = Recorder::begin(black_box(&mut memory), &plans);
    let _ = black_box(recorder.note_sample(black_box(&mut memory), black_box(1), readings, &[], board.sample(readings, black_box(&[]))));
    let _ = black_box(recorder.note_frame(black_box(&mut memory), black_box(&[]), &reply, answer));
    let _ = black_box(recorder.note_reading(black_box(&mut memory), adomvik::read(black_box(&[]))));
    recorder = Recorder::from_bytes(black_box(&[0; RECORDER_BYTES]));
    let _ = black_box((recorder.note_other(), recorder.acts(), recorder.recording(black_box(&memory)), recorder.to_bytes()));
    let mut lent = [board, board];
    if let Checked::Refused { why, at } = black_box(adomvik::check(black_box(&mut lent), black_box(&memory))) {
        let _ = black_box((why.number(), at));
    }
    let _ = black_box(Row::from(lent).check(black_box(&[])));
    loop {}
}
