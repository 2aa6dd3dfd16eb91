// The face in JavaScript under test: reads and writes what drive.c does.
//     node drive.mjs FOLDER     FOLDER has adomvik.mjs and adomvik.wasm as they are installed
import { readFileSync, writeSync } from "node:fs";
import { pathToFileURL } from "node:url";

const folder = process.argv[2];
const { load, Plan, Refusal } = await import(pathToFileURL(`${folder}/adomvik.mjs`));
const RECORDS = 18;
const PATTERN = 0xa5;
const BLANK = 0xa5a5a5a5; // a number in a place that nothing was put into, as drive.c has it
// A record's padding: one byte in front of the tallies, and two at its end.
const PADDING = 121;
const RECORD_END = 778;
// Bytes in front of a recording's memory and behind it, as drive.c has them, and the most between.
const GUARD = 13;
const MEMORY = 66000;

const adomvik = await load(readFileSync(`${folder}/adomvik.wasm`));
const row = adomvik.row(RECORDS);
const recorder = adomvik.recorder(MEMORY + GUARD);
let length = 0; // of the memory that is lent

// The answer's words, or the refusal's number and what the places hold that nothing was put into.
function told(act, blank) {
  try {
    return [0, ...act()];
  } catch (why) {
    if (!(why instanceof Refusal)) throw why;
    return [why.number, ...blank];
  }
}

// What each byte comes to in CRC-32.
const TABLE = Uint32Array.from({ length: 256 }, (_, crc) => {
  for (let k = 0; k < 8; k++) crc = crc >>> 1 ^ (crc & 1 ? 0xedb88320 : 0);
  return crc;
});

const shown = (crc) => (~crc >>> 0).toString(16).padStart(8, "0");

// CRC-32 of the records, but for the padding in each.
function checksum() {
  let crc = 0xffffffff;
  for (let place = 0; place < RECORDS; place++) {
    const bytes = row.record(place);
    for (let at = 0; at < RECORD_END; at++) {
      if (at !== PADDING) crc = crc >>> 8 ^ TABLE[(crc ^ bytes[at]) & 255];
    }
  }
  return shown(crc);
}

// The memory that is lent and the guards; the one in front is not in the recorder's memory.
function tape() {
  return [...Array(GUARD).fill(PATTERN), ...recorder.memory().subarray(0, length + GUARD)];
}

// Another memory, with any recorder.
function setTape(lent, state) {
  length = lent;
  recorder.restore(state, new Uint8Array(MEMORY + GUARD).fill(PATTERN), lent);
}

// The recorder's fields behind its verdict, and the checksum of its memory.
function toldRecorder() {
  const fields = new DataView(recorder.state().buffer);
  const crc = tape().reduce((so, byte) => so >>> 8 ^ TABLE[(so ^ byte) & 255], 0xffffffff);
  return [recorder.verdict, fields.getUint32(0, true), fields.getUint16(4, true), fields.getUint8(6), shown(crc)];
}

// What an act returned, from its number.
const result = (number, answer) => number === 0 ? answer : new Refusal(number);

// A plan for every four numbers: kind, cells, row, trigger.
const KINDS = [Plan.standAlone, Plan.host, Plan.garden];
function plans(numbers) {
  const made = [];
  for (let i = 0; i < numbers.length; i += 4) made.push(KINDS[numbers[i]](...numbers.slice(i + 1, i + 4)));
  return made;
}

const readings = ([elapsed, shunt, thermistor, load]) => ({ elapsed, shunt, thermistor, load });
const sampled = ({ status, bled }) => [status, bled];
const NOT_SAMPLED = [PATTERN, PATTERN << 8 | PATTERN];

const acts = {
  O: ([boards, ...counts]) => told(() => { row.first(boards).open(counts); return []; }, []),
  P: ([boards, ...fours]) => told(() => { row.first(boards).openPlans(plans(fours)); return []; }, []),
  S: ([boards, board, ...x]) => told(() => sampled(row.first(boards).sample(board, readings(x), x.slice(4))), NOT_SAMPLED),
  B: ([place, ...x]) => told(() => sampled(row.sampleRecord(place, readings(x), x.slice(4))), NOT_SAMPLED),
  F: ([boards, room, ...frame]) => {
    const reply = new Uint8Array(room).fill(PATTERN);
    const number = told(() => { row.first(boards).frameInto(frame, reply); return []; }, []);
    return room ? [...number, Buffer.from(reply).toString("hex")] : number;
  },
  R: ([boards]) => told(() => {
    const { line, chg, dsg, board, cell } = row.first(boards).read();
    return [+line, +chg, +dsg, board, cell];
  }, Array(5).fill(PATTERN)),
  // the number is 255 where the reading is not refused alike, or has another line
  U: ([boards]) => {
    const some = row.first(boards);
    const [number, line, looked] = told(() => { const up = some.up(); return [+up.line, up.looked]; }, Array(2).fill(PATTERN));
    const whole = told(() => [+some.read().line], [PATTERN]);
    return [whole[0] === number && whole[1] === line ? number : 255, line, looked];
  },
  L: ([boards, board, room]) => {
    const words = new Uint32Array(3 * room).fill(BLANK);
    const number = told(() => [row.first(boards).listingInto(board, words)], [BLANK]);
    return [...number, ...words];
  },
};

// The recording that is checked, as far as it was put.
let recording = [];

// Its first bytes, so many, with another one at a place among them: the number and the place.
function toldCheck([boards, length, at, byte]) {
  const lent = Uint8Array.from(recording.slice(0, length));
  if (at < length) lent[at] = byte;
  try {
    const { right, place } = row.first(boards).check(lent);
    return right === (place === 0) ? [0, place] : [255, place];
  } catch (why) {
    if (!(why instanceof Refusal)) throw why;
    return [why.number, why.at];
  }
}

const notes = {
  M: ([lent, ...fours]) => {
    setTape(lent, Array(8).fill(0));
    told(() => { recorder.begin(plans(fours), lent); return []; }, []);
    return toldRecorder();
  },
  s: ([board, elapsed, shunt, thermistor, load, number, status, bled, ...cells]) => {
    recorder.noteSample(board, { elapsed, shunt, thermistor, load }, cells, result(number, { status, bled }));
    return toldRecorder();
  },
  f: ([number, room, ...bytes]) => {
    recorder.noteFrame(bytes.slice(room), Uint8Array.from(bytes.slice(0, room)), result(number));
    return toldRecorder();
  },
  r: ([number, line, chg, dsg, board, cell]) => {
    recorder.noteReading(result(number, { line: line === 1, chg: chg === 1, dsg: dsg === 1, board, cell }));
    return toldRecorder();
  },
  o: () => {
    recorder.noteOther();
    return toldRecorder();
  },
  D: () => [0, Buffer.from(tape()).toString("hex")],
};

// A recorder's four fields as it has them.
function stateOf([used, acts, stopped, verdict]) {
  const state = new DataView(new ArrayBuffer(8));
  state.setUint32(0, used, true);
  state.setUint16(4, acts, true);
  state.setUint8(6, stopped);
  state.setUint8(7, verdict);
  return new Uint8Array(state.buffer);
}

const answers = [];
for (const line of readFileSync(0, "latin1").split("\n").slice(0, -1)) {
  const numbers = line.split(" ").slice(1).map(Number);
  if (line[0] === "W") row.setRecord(numbers[0], numbers.slice(1));
  else if (line[0] === "H") recording = recording.slice(0, numbers[0]).concat(numbers.slice(1));
  else if (line[0] === "C") answers.push([...toldCheck(numbers), checksum()].join(" "));
  else if (line[0] === "G") setTape(numbers[0], stateOf(numbers.slice(1)));
  else if (line[0] in notes) answers.push(notes[line[0]](numbers).join(" "));
  else answers.push([...acts[line[0]](numbers), checksum()].join(" "));
}
const text = Buffer.from(answers.concat("").join("\n"));
for (let at = 0; at < text.length;) at += writeSync(1, text, at);
