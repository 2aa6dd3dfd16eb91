// The types of adomvik.mjs.

/** The bytes of a record. */
export const RECORD_BYTES: 780;
/** The most boards that a stack has. */
export const BOARDS_MAX: 16;
/** The most entries of a board's journal: room for so many is always enough for its listing. */
export const JOURNAL_MAX: 128;
/** The most bytes of a recording that is made here: of more memory the rest is not used. */
export const RECORDING_MAX: 65535;
/** The bytes of a recorder's state. */
export const RECORDER_BYTES: 8;
/** Register 1 of a host board: a write that takes this bit from 1 to 0 clears the faults that are over on the last sample. */
export const CONTROL_CLEAR: 1;
/** Register 1 of a host board: DSG may be on. A fault that latches and forbids the switch clears the bit. */
export const CONTROL_DSG: 2;
/** Register 1 of a host board: CHG may be on, likewise. */
export const CONTROL_CHG: 4;
/** A row of the garden boards' device table: OV 4200 less 200 mV, UV 2900 and 400 mV, which waits for the load to be removed. */
export const BQ7791500: 0;
/** OV 4250 less 200 mV, UV 2800 and 400 mV, which waits for the load to be removed. */
export const BQ7791501: 1;
/** OV 4275 less 100 mV, UV 2000 and 200 mV. */
export const BQ7791504: 2;
/** A cause of a latching: a short circuit in discharge. */
export const CAUSE_SCD: 0;
/** Overcurrent in discharge. */
export const CAUSE_OCD: 1;
/** Overvoltage of a cell. */
export const CAUSE_OV: 2;
/** Undervoltage of a cell. */
export const CAUSE_UV: 3;
/** Overtemperature. */
export const CAUSE_HOT: 4;

/** Why an act was refused, or a recording could not begin or not be checked, with the paper's number. */
export class Refusal extends Error {
  constructor(number: number, at?: number);
  readonly name: "Refusal";
  /** 1 to 11, or 13 to 19; 12 is a program's own, 15 and 16 are a recorder's, 17 to 19 are a check's. */
  readonly number: number;
  /**
   * Of a check, with 17, 18 and 19: the byte of the recording, from 0, at which the field begins that is cut short or wrong, or at
   * which what is left over begins; with 1: how many boards the recording has.
   */
  readonly at?: number;
}

/** What a sample reads beside the cells. */
export interface Readings {
  /** µs since the board's last accepted sample. */
  elapsed: number;
  /** µV; discharge is positive, charge is negative. */
  shunt: number;
  /** mV. */
  thermistor: number;
  /** 1 attached, 0 not. */
  load: number;
}

/** The answer to a sample. */
export interface Sampled {
  /** Register 0: the latched faults and the switches. */
  status: number;
  /** The bled cells as a number: cell 1 is worth 1, cell 2 is worth 2, cell 3 is worth 4 and so on. */
  bled: number;
}

/** A whole-stack reading. */
export interface Reading {
  /** Board 1's fault line is up. */
  line: boolean;
  /** CHG is on at every board. */
  chg: boolean;
  /** DSG is on at every board. */
  dsg: boolean;
  /** The southernmost board with a flagged cell, or 0. */
  board: number;
  /** The lowest flagged cell on it, or 0. */
  cell: number;
}

/** The fault line alone. */
export interface Line {
  /** Board 1's fault line is up. */
  line: boolean;
  /** The boards looked at: the number of the southernmost with a latch, or of all boards where none has one. */
  looked: number;
}

/** An entry of a listing. Causes and cells of a record that came from no opening may be any numbers up to 15. */
export interface Latching {
  /** One of the five causes, CAUSE_SCD to CAUSE_HOT. */
  cause: number;
  /** Of OV and UV the lowest cell at fault, that stood its delay or reached its trigger; of the others 0. */
  cell: number;
  /** The number of the board's accepted sample that latched it, from 1; held at 4,294,967,295. */
  number: number;
}

/** What a check of a recording that can be read came to. */
export interface Checked {
  /** Every answer in it is right. */
  right: boolean;
  /** The place of the first act whose answer is wrong, from 1; 0 where none is. */
  place: number;
}

/** What a board is to be: its kind and its cells. Any numbers make a plan; one that no board can have is refused as it is opened. */
export class Plan {
  private constructor();
  #private;
  /** A board of 5 to 10 cells whose faults let go by themselves. */
  static standAlone(cells: number): Plan;
  /** A board of 5 to 10 cells whose host clears its faults and lets its switches on, by register 1. Overtemperature lets go by itself. */
  static host(cells: number): Plan;
  /**
   * A garden board of 3 to 5 cells, by a row of the device table and a trigger of 1 to 255: so many counts latch OV or UV, and so
   * many let it go. It starts with OV latched, and of the registers has only 0 and those of the tallies.
   */
  static garden(cells: number, row: number, trigger: number): Plan;
}

/** A row of board records. Every act returns its answer or throws a Refusal, and has then changed nothing. */
export class Row {
  private constructor();
  /** How many records there are. */
  readonly boards: number;
  /** The row of the first so many of these records. */
  first(boards: number): Row;
  /** Opens the row as stand-alone boards: a cell count for each record, southernmost first. */
  open(counts: readonly number[]): void;
  /** Opens the row: a plan for each record, southernmost first. */
  openPlans(plans: readonly Plan[]): void;
  /** A sample of one board, counted from 1. */
  sample(board: number, readings: Readings, cells: readonly number[]): Sampled;
  /** A sample of the record at a place, from 0, with no row looked at. */
  sampleRecord(place: number, readings: Readings, cells: readonly number[]): Sampled;
  /** A frame from the host; its four bytes of reply. */
  frame(frame: ArrayLike<number> & Iterable<number>): Uint8Array;
  /** A frame from the host; its reply takes the first four bytes of `reply`, and later ones stay. */
  frameInto(frame: ArrayLike<number> & Iterable<number>, reply: Uint8Array): void;
  /** The whole-stack reading. */
  read(): Reading;
  /** Is anything up? The line of the reading alone, by a search that stops at the first board with a latch. */
  up(): Line;
  /** The journal of one board, counted from 1: its entries, oldest first. */
  listing(board: number): Latching[];
  /**
   * The journal of one board, counted from 1, oldest entry first: how many entries it has. Cause, cell and sample number of each take
   * the first of `words`, and later ones stay; room for three times JOURNAL_MAX is always enough.
   */
  listingInto(board: number, words: Uint32Array): number;
  /**
   * Checks a recording, of any length and from whoever wrote it: whether each answer in it is the one that its act gets after the acts
   * before it. The first records, as many as it has boards, are opened by what it lists, and the acts are done again up to the first
   * whose answer differs, or to the last; later records stay. Throws a Refusal where it is cut short (17), a field of it is wrong (18)
   * or bytes are left over (19), and then where it has more boards than this row has records (1); all of these stay then, and
   * BOARDS_MAX are always enough.
   */
  check(recording: ArrayLike<number> & Iterable<number>): Checked;
  /** The bytes of the record at a place, from 0, to be kept. */
  record(place: number): Uint8Array;
  /** Kept bytes back into the record at a place: any bytes are a record. */
  setRecord(place: number, bytes: ArrayLike<number> & Iterable<number>): void;
}

/** Of a recorder: 0 where the act stands in the recording, 15 where it is not recordable, 16 where there is no room for it. */
export type Verdict = 0 | 15 | 16;

/**
 * The recorder of a day, with the memory that its recording is written into; include/adomvik.h says what its bytes are. An act is
 * noted after it was made, with what it returned or the Refusal that it threw. Where it could not be recorded it stands all the same,
 * and the memory is as it was: after 15 the recording goes on without the act; from the first 16 on, every act that could be recorded
 * gets 16.
 */
export class Recorder {
  private constructor();
  /**
   * Begins the recording of a stack that these plans open, before its first act, in the first `room` bytes of the memory. Throws a
   * Refusal where nothing can be recorded: 1 where the plans open no stack, else 15 where one is of a garden board, else 16.
   */
  begin(plans: readonly Plan[], room?: number): void;
  /** Notes a sample: 15 where the board or the load is over 255, the thermistor or a cell over 65,535, or there are over 121 cells. */
  noteSample(board: number, readings: Readings, cells: readonly number[], answer: Sampled | Refusal): Verdict;
  /** Notes a frame, with its reply buffer as it is afterwards: 15 where the frame is over 255 bytes, or the buffer under 4. */
  noteFrame(frame: ArrayLike<number> & Iterable<number>, reply: Uint8Array, refusal?: Refusal): Verdict;
  /** Notes a whole-stack reading. */
  noteReading(answer: Reading | Refusal): Verdict;
  /** Notes a listing or a look for the fault line: 15. */
  noteOther(): Verdict;
  /** Of the act noted last, or of the beginning. */
  readonly verdict: number;
  /** The recording so far; empty where nothing is recorded. */
  recording(): Uint8Array;
  /** The recorder's own bytes, to be kept. */
  state(): Uint8Array;
  /** The whole memory, to be kept beside them. */
  memory(): Uint8Array;
  /** Kept bytes back into the recorder and its memory, of which it has the first `room`: any bytes are a recorder. */
  restore(state: ArrayLike<number> & Iterable<number>, memory: ArrayLike<number> & Iterable<number>, room?: number): void;
}

/** The library. */
export class Adomvik {
  constructor(module: WebAssembly.Module);
  /** A stack of stand-alone boards by the cell count of each, southernmost first. */
  open(counts: readonly number[]): Row;
  /** A stack by the plan of each board, southernmost first. */
  openPlans(plans: readonly Plan[]): Row;
  /** A row of so many records that no opening has made yet, in a memory of its own. */
  row(boards: number): Row;
  /** A recorder with so many bytes for a recording, in a memory of its own; nothing is recorded before it begins. */
  recorder(bytes: number): Recorder;
}

/** Compiles the bytes of adomvik.wasm. */
export function load(bytes: BufferSource): Promise<Adomvik>;
