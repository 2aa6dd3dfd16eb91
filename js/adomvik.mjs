// Adomvik, a proved battery-pack protector, for JavaScript: the proved module as WebAssembly, which imports nothing.
//
// A row owns its board records, in a memory of its own. Every act returns its answer, or throws the Refusal of the paper's
// table; a refused act has changed nothing. adomvik.d.ts has the types.

/** The bytes of a record. */
export const RECORD_BYTES = 780;
/** The most boards that a stack has. */
export const BOARDS_MAX = 16;
/** The most entries of a board's journal: room for so many is always enough for its listing. */
export const JOURNAL_MAX = 128;
/** The most bytes of a recording that is made here: of more memory the rest is not used. */
export const RECORDING_MAX = 65535;
/** The bytes of a recorder's state. */
export const RECORDER_BYTES = 8;

/** Register 1 of a host board: a write that takes this bit from 1 to 0 clears the faults that are over on the last sample. */
export const CONTROL_CLEAR = 1;
/** Register 1 of a host board: DSG may be on. A fault that latches and forbids the switch clears the bit. */
export const CONTROL_DSG = 2;
/** Register 1 of a host board: CHG may be on, likewise. */
export const CONTROL_CHG = 4;

/** A row of the garden boards' device table: OV 4200 less 200 mV, UV 2900 and 400 mV, which waits for the load to be removed. */
export const BQ7791500 = 0;
/** OV 4250 less 200 mV, UV 2800 and 400 mV, which waits for the load to be removed. */
export const BQ7791501 = 1;
/** OV 4275 less 100 mV, UV 2000 and 200 mV. */
export const BQ7791504 = 2;

/** A cause of a latching: a short circuit in discharge. */
export const CAUSE_SCD = 0;
/** Overcurrent in discharge. */
export const CAUSE_OCD = 1;
/** Overvoltage of a cell. */
export const CAUSE_OV = 2;
/** Undervoltage of a cell. */
export const CAUSE_UV = 3;
/** Overtemperature. */
export const CAUSE_HOT = 4;

const STAND_ALONE = 0;
const HOST = 1;
const GARDEN = 2;

const FRAME_BYTES = 4;
const ENTRY_WORDS = 3; // cause, cell, number
const LISTING_REFUSED = 256; // and the refusal's number; less is how many entries were listed
const CHECKED_BYTES = 8; // what a check tells: a place in four bytes, a number in one
const RECORDS_MAX = 256; // of a row in memory; the library itself takes 16 at most
const MEMORY_MAX = 1 << 20; // of a recorder; the library itself uses 65,535 bytes at most
const BAD_ROW = 1;
const NOT_RECORDABLE = 15;
const PAGE = 65536;
const LARGEST = 0xffffffff;

// By the paper's number; 12 is a program's own and never comes from the library.
const WHY = {
  1: "not 1 to 16 boards, or one of no kind, or of cells, a row or a trigger that its kind has not",
  2: "no board of that number",
  3: "the cell list is not as long as the board's cell count",
  4: "elapsed time not 1 to 100,000 µs",
  5: "a cell or the thermistor above 5,000 mV, the shunt beyond 500,000 µV, or the load flag not 0 or 1",
  6: "the frame is not 4 bytes",
  7: "the reply buffer is under 4 bytes",
  8: "the check byte is wrong",
  9: "a board of that kind has no such register, or a write to one that is only read",
  10: "a read with a value, or a write of one that the register does not take",
  11: "programming staged settings unlike the working ones, three cycles already spent",
  13: "programming staged settings whose SCD level is not above their OCD level",
  14: "the lent entry buffer is too short for the listing",
  15: "a garden board, another kind of act, a field too large, a body over 255 bytes, or a reply buffer under 4: not recordable",
  16: "no room in the memory for the header or the act, now or at an earlier act",
  17: "the recording is cut short",
  18: "a wrong edition, board or cell count, kind, or body length for its kind",
  19: "bytes are left over after the last act",
};

/** Why an act was refused, or a recording could not begin or not be checked, with the paper's number. */
export class Refusal extends Error {
  /** `at` is what a check tells beside the number: the byte of the recording, from 0, or with 1 how many boards it has. */
  constructor(number, at = undefined) {
    const where = number === BAD_ROW ? `; the recording has ${at}` : `, at byte ${at}`;
    super(`refusal ${number}: ${WHY[number]}${at === undefined ? "" : where}`);
    this.name = "Refusal";
    this.number = number;
    this.at = at;
  }
}

function accepted(number) {
  if (number !== 0) throw new Refusal(number);
}

// A number that fits no field is handed on as the largest, which the table refuses wherever a number is asked for.
function natural(n) {
  return Number.isInteger(n) && n >= 0 && n <= LARGEST ? n : LARGEST;
}

function signed(n) {
  return Number.isInteger(n) && n >= -0x80000000 && n <= 0x7fffffff ? n : 0x7fffffff;
}

// A frame and a reply are bytes and nothing else: another number has no place in the table.
function checkBytes(bytes) {
  for (const byte of bytes) {
    if (!Number.isInteger(byte) || byte < 0 || byte > 255) throw new RangeError(`${byte} is no byte`);
  }
}

// Has a memory reach so far: it grows by what is lacking.
function reach(memory, end) {
  const lacking = end - memory.buffer.byteLength;
  if (lacking > 0) memory.grow(Math.ceil(lacking / PAGE));
}

// What is free of a memory from a place on, for the lists of a call.
class Free {
  #memory;
  #at;

  constructor(memory, at) {
    this.#memory = memory;
    this.#at = at;
  }

  // A block for a call, so many bytes behind the place.
  place(from, bytes) {
    const at = this.#at + from;
    reach(this.#memory, at + bytes);
    return at;
  }

  words(from, numbers) {
    const at = this.place(from, 4 * numbers.length);
    const view = new Uint32Array(this.#memory.buffer, at, numbers.length);
    for (let i = 0; i < numbers.length; i++) view[i] = natural(numbers[i]);
    return at;
  }

  bytes(from, bytes) {
    const at = this.place(from, bytes.length);
    new Uint8Array(this.#memory.buffer, at, bytes.length).set(bytes);
    return at;
  }

  // The readings, passed by value in C: on this target by an address.
  readings(from, { elapsed, shunt, thermistor, load }) {
    const at = this.words(from, [elapsed, 0, thermistor, load]);
    new Int32Array(this.#memory.buffer, at + 4, 1)[0] = signed(shunt);
    return at;
  }
}

// A plan as the library takes it; a TypeError where it is none.
let numberOf;

/** What a board is to be: its kind and its cells. Plans are made by `Plan.standAlone`, `Plan.host` and `Plan.garden` alone. */
export class Plan {
  #number;

  static {
    numberOf = (plan) => plan.#number;
  }

  // Numbers that no plan can have make one that nothing opens.
  static #of(kind, cells, row, trigger) {
    const plan = new Plan();
    const fits = [cells, row, trigger].every((n) => natural(n) < 256);
    plan.#number = fits ? 16777216 * trigger + 65536 * row + 256 * kind + cells : 0;
    return plan;
  }

  /** A board of so many cells whose faults let go by themselves. */
  static standAlone(cells) {
    return Plan.#of(STAND_ALONE, cells, 0, 0);
  }

  /** A board of so many cells whose host clears its faults and lets its switches on, by register 1. */
  static host(cells) {
    return Plan.#of(HOST, cells, 0, 0);
  }

  /** A garden board of so many cells, by a row of the device table and a trigger; it starts with OV latched. */
  static garden(cells, row, trigger) {
    return Plan.#of(GARDEN, cells, row, trigger);
  }
}

/** A row of board records, made by `Adomvik.open`, `Adomvik.openPlans` or `Adomvik.row`. */
export class Row {
  #acts;
  #memory;
  #at;
  #boards;
  #free;

  /** `at` is where the records lie in the memory, `free` what is free for the lists of a call. */
  constructor(acts, at, boards, free) {
    this.#acts = acts;
    this.#memory = acts.memory;
    this.#at = at;
    this.#boards = boards;
    this.#free = free;
  }

  /** How many records there are. */
  get boards() {
    return this.#boards;
  }

  /** The row of the first so many of these records. */
  first(boards) {
    if (!Number.isInteger(boards) || boards < 0 || boards > this.#boards) throw new RangeError(`no row of ${boards} records here`);
    return new Row(this.#acts, this.#at, boards, this.#free);
  }

  #sampled(act, readings, cells) {
    const cellsAt = this.#free.words(24, cells);
    const out = this.#free.place(16, 4);
    accepted(act(this.#free.readings(0, readings), cellsAt, cells.length, out));
    const view = new DataView(this.#memory.buffer, out, 4);
    return { status: view.getUint8(0), bled: view.getUint16(2, true) };
  }

  /** Opens the row as stand-alone boards: a cell count for each record, southernmost first. */
  open(counts) {
    accepted(this.#acts.adomvik_open(this.#at, this.#boards, this.#free.words(0, counts), counts.length));
  }

  /** Opens the row: a plan for each record, southernmost first. */
  openPlans(plans) {
    const numbers = plans.map(numberOf);
    accepted(this.#acts.adomvik_open_plans(this.#at, this.#boards, this.#free.words(0, numbers), numbers.length));
  }

  /** A sample of one board, counted from 1. */
  sample(board, readings, cells) {
    return this.#sampled((x, mv, n, out) => this.#acts.adomvik_sample(this.#at, this.#boards, natural(board), x, mv, n, out), readings, cells);
  }

  /** A sample of the record at a place, from 0, with no row looked at. */
  sampleRecord(place, readings, cells) {
    const record = this.#record(place);
    return this.#sampled((x, mv, n, out) => this.#acts.adomvik_sample_board(record, x, mv, n, out), readings, cells);
  }

  /** A frame from the host; its reply takes the first four bytes of `reply`, and later ones stay. */
  frameInto(frame, reply) {
    checkBytes(frame);
    const sent = this.#free.bytes(0, frame);
    const room = this.#free.bytes(frame.length, reply);
    const number = this.#acts.adomvik_frame(this.#at, this.#boards, sent, frame.length, room, reply.length);
    reply.set(new Uint8Array(this.#memory.buffer, room, reply.length));
    accepted(number);
  }

  /** A frame from the host; its four bytes of reply. */
  frame(frame) {
    const reply = new Uint8Array(FRAME_BYTES);
    this.frameInto(frame, reply);
    return reply;
  }

  /** The whole-stack reading. */
  read() {
    const out = this.#free.place(0, 5);
    accepted(this.#acts.adomvik_read(this.#at, this.#boards, out));
    const [line, chg, dsg, board, cell] = new Uint8Array(this.#memory.buffer, out, 5);
    return { line: line === 1, chg: chg === 1, dsg: dsg === 1, board, cell };
  }

  /** Is anything up? The line of the reading alone, by a search that stops at the first board with a latch. */
  up() {
    const out = this.#free.place(0, 2);
    accepted(this.#acts.adomvik_up(this.#at, this.#boards, out));
    const [line, looked] = new Uint8Array(this.#memory.buffer, out, 2);
    return { line: line === 1, looked };
  }

  /**
   * The journal of one board, counted from 1, oldest entry first: how many entries it has. Cause, cell and sample number of each take
   * the first of `words`, and later ones stay.
   */
  listingInto(board, words) {
    if (!(words instanceof Uint32Array)) throw new TypeError("entries go into a Uint32Array");
    const many = Math.min(words.length, ENTRY_WORDS * JOURNAL_MAX);
    const at = this.#free.words(0, words.subarray(0, many));
    const told = this.#acts.adomvik_list(this.#at, this.#boards, natural(board), at, many);
    words.set(new Uint32Array(this.#memory.buffer, at, many));
    if (told >= LISTING_REFUSED) throw new Refusal(told - LISTING_REFUSED);
    return told;
  }

  /** The journal of one board, counted from 1: its entries, oldest first. */
  listing(board) {
    const words = new Uint32Array(ENTRY_WORDS * JOURNAL_MAX);
    const count = this.listingInto(board, words);
    return Array.from({ length: count }, (_, i) => {
      const [cause, cell, number] = words.subarray(ENTRY_WORDS * i);
      return { cause, cell, number };
    });
  }

  /**
   * Checks a recording: opens as many boards as it has, and does its acts again up to the first whose answer is wrong, or to the last.
   * Throws where it cannot be read, or has more boards than this row has records; all of them stay then.
   */
  check(recording) {
    checkBytes(recording);
    const out = this.#free.place(0, CHECKED_BYTES);
    const bytes = this.#free.bytes(CHECKED_BYTES, recording);
    const boards = recording.length >= 4 ? Math.min(this.#boards, recording[2] + 256 * recording[3]) : this.#boards;
    this.#acts.adomvik_check_row(out, this.#at, boards, bytes, recording.length);
    const view = new DataView(this.#memory.buffer, out, CHECKED_BYTES);
    const place = view.getUint32(0, true);
    const number = view.getUint8(4);
    if (number !== 0) throw new Refusal(number, place);
    return { right: place === 0, place };
  }

  #record(place) {
    if (!Number.isInteger(place) || place < 0 || place >= this.#boards) throw new RangeError(`no record at ${place}`);
    return this.#at + RECORD_BYTES * place;
  }

  /** The bytes of the record at a place, from 0, to be kept. */
  record(place) {
    return new Uint8Array(this.#memory.buffer, this.#record(place), RECORD_BYTES).slice();
  }

  /** Kept bytes back into the record at a place: any bytes are a record. */
  setRecord(place, bytes) {
    if (bytes.length !== RECORD_BYTES) throw new RangeError(`a record has ${RECORD_BYTES} bytes`);
    checkBytes(bytes);
    new Uint8Array(this.#memory.buffer, this.#record(place), RECORD_BYTES).set(bytes);
  }
}

// What an act came to, as a number: 0, or the refusal that it threw.
function returned(answer) {
  return answer instanceof Refusal ? answer.number : 0;
}

/** The recorder of a day, with the memory that its recording is written into; made by `Adomvik.recorder`. */
export class Recorder {
  #acts;
  #memory;
  #state;
  #at;
  #bytes;
  #room;
  #free;

  /** `state` is where the recorder lies in the memory: itself, a place for the next one, and what the recording is written into. */
  constructor(acts, state, bytes) {
    this.#acts = acts;
    this.#memory = acts.memory;
    this.#state = state;
    this.#at = state + 2 * RECORDER_BYTES;
    this.#bytes = bytes;
    this.#room = bytes;
    this.#free = new Free(acts.memory, (this.#at + bytes + 7) & ~7);
    reach(acts.memory, this.#at + bytes);
  }

  // Calls what returns a recorder, on this target into an address, and keeps that one; its verdict.
  #call(name, ...words) {
    const next = this.#state + RECORDER_BYTES;
    this.#acts[name](next, ...words);
    new Uint8Array(this.#memory.buffer).copyWithin(this.#state, next, next + RECORDER_BYTES);
    return this.verdict;
  }

  #lend(room) {
    if (!Number.isInteger(room) || room < 0 || room > this.#bytes) throw new RangeError(`no room of ${room} bytes here`);
    this.#room = room;
  }

  /**
   * Begins the recording of a stack that these plans open, before its first act, in the first `room` bytes of the memory. Throws
   * where nothing can be recorded.
   */
  begin(plans, room = this.#bytes) {
    const numbers = plans.map(numberOf);
    this.#lend(room);
    accepted(this.#call("adomvik_begin", this.#at, room, this.#free.words(0, numbers), numbers.length));
  }

  /** Notes a sample, with what it returned or the Refusal that it threw; the verdict. */
  noteSample(board, readings, cells, answer) {
    const { status, bled } = answer;
    const cellsAt = this.#free.words(16, cells);
    const x = this.#free.readings(0, readings);
    return this.#call("adomvik_note_sample", this.#state, this.#at, this.#room, natural(board), x, cellsAt, cells.length, returned(answer),
      status & 0xff, bled & 0xffff);
  }

  /** Notes a frame, with its reply buffer as it is afterwards, and the Refusal that it threw if it did; the verdict. */
  noteFrame(frame, reply, refusal) {
    checkBytes(frame);
    const sent = this.#free.bytes(0, frame);
    const room = this.#free.bytes(frame.length, reply);
    return this.#call("adomvik_note_frame", this.#state, this.#at, this.#room, sent, frame.length, room, reply.length, returned(refusal));
  }

  /** Notes a whole-stack reading, with what it returned or the Refusal that it threw; the verdict. */
  noteReading(answer) {
    const numbers = [answer.line, answer.chg, answer.dsg, answer.board, answer.cell].map((n) => n & 0xff);
    return this.#call("adomvik_note_reading", this.#state, this.#at, this.#room, returned(answer), ...numbers);
  }

  /** Notes a listing or a look for the fault line, which no recording has; the verdict. */
  noteOther() {
    return this.#call("adomvik_note_other", this.#state);
  }

  /** Of the act noted last, or of the beginning: 0 where it stands in the recording, else 15 or 16, or 1 of a beginning. */
  get verdict() {
    return this.state()[7];
  }

  /** The recording so far; empty where nothing is recorded. */
  recording() {
    const used = new DataView(this.#memory.buffer, this.#state, RECORDER_BYTES).getUint32(0, true);
    return this.memory().subarray(0, used);
  }

  /** The recorder's own bytes, to be kept. */
  state() {
    return new Uint8Array(this.#memory.buffer, this.#state, RECORDER_BYTES).slice();
  }

  /** The whole memory, to be kept beside them. */
  memory() {
    return new Uint8Array(this.#memory.buffer, this.#at, this.#bytes).slice();
  }

  /** Kept bytes back into the recorder and its memory, of which it has the first `room`: any bytes are a recorder. */
  restore(state, memory, room = this.#bytes) {
    if (state.length !== RECORDER_BYTES) throw new RangeError(`a recorder has ${RECORDER_BYTES} bytes`);
    if (memory.length !== this.#bytes) throw new RangeError(`the memory has ${this.#bytes} bytes`);
    checkBytes(state);
    checkBytes(memory);
    this.#lend(room);
    new Uint8Array(this.#memory.buffer, this.#state, RECORDER_BYTES).set(state);
    new Uint8Array(this.#memory.buffer, this.#at, this.#bytes).set(memory);
  }
}

/** The library. */
export class Adomvik {
  #module;

  constructor(module) {
    this.#module = module;
  }

  /** A stack of stand-alone boards by the cell count of each, southernmost first. */
  open(counts) {
    const row = this.row(Math.min(counts.length, RECORDS_MAX));
    row.open(counts);
    return row;
  }

  /** A stack by the plan of each board, southernmost first. */
  openPlans(plans) {
    const row = this.row(Math.min(plans.length, RECORDS_MAX));
    row.openPlans(plans);
    return row;
  }

  /** A row of so many records that no opening has made yet, in a memory of its own. */
  row(boards) {
    if (!Number.isInteger(boards) || boards < 0 || boards > RECORDS_MAX) throw new RangeError(`no row of ${boards} records`);
    const [acts, at] = this.#instance();
    const behind = at + RECORD_BYTES * boards;
    reach(acts.memory, behind);
    return new Row(acts, at, boards, new Free(acts.memory, behind));
  }

  /** A recorder with so many bytes for a recording, in a memory of its own; nothing is recorded before it begins. */
  recorder(bytes) {
    if (!Number.isInteger(bytes) || bytes < 0 || bytes > MEMORY_MAX) throw new RangeError(`no memory of ${bytes} bytes`);
    const recorder = new Recorder(...this.#instance(), bytes);
    recorder.restore([0, 0, 0, 0, 0, 0, NOT_RECORDABLE, NOT_RECORDABLE], new Uint8Array(bytes));
    return recorder;
  }

  // The acts over a memory of their own, and where that is free.
  #instance() {
    const acts = new WebAssembly.Instance(this.#module, {}).exports;
    return [acts, (acts.__heap_base.value + 7) & ~7];
  }
}

/** Compiles the bytes of adomvik.wasm. */
export async function load(bytes) {
  return new Adomvik(await WebAssembly.compile(bytes));
}
