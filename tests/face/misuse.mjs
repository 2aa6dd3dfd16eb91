// What a caller in JavaScript can get wrong and one in C cannot: numbers that fit no field, places that are not there.
//     node misuse.mjs FOLDER    FOLDER has adomvik.mjs and adomvik.wasm as they are installed
import assert from "node:assert/strict";
import { readFileSync } from "node:fs";
import { pathToFileURL } from "node:url";

const folder = process.argv[2];
const { load, Plan, Refusal, BQ7791500, BQ7791504, CONTROL_CHG, CONTROL_CLEAR, CONTROL_DSG } = await import(pathToFileURL(`${folder}/adomvik.mjs`));
const adomvik = await load(readFileSync(`${folder}/adomvik.wasm`));
const quiet = { elapsed: 1000, shunt: 0, thermistor: 2000, load: 0 };
const five = [3900, 3900, 3900, 3900, 3900];

function refused(number, act) {
  assert.throws(act, (why) => why instanceof Refusal && why.number === number && why.message.startsWith(`refusal ${number}: `)
    && !why.message.includes("undefined"));
}

const stack = adomvik.open([5, 6]);
assert.deepEqual(stack.sample(1, quiet, five), { status: 192, bled: 0 });
assert.deepEqual(stack.read(), { line: false, chg: true, dsg: true, board: 0, cell: 0 });
assert.deepEqual(stack.up(), { line: false, looked: 2 });
assert.deepEqual([...stack.frame([2, 0, 0, 214])], [2, 0, 192, 152]);
const before = stack.record(0);

// each field by itself: too large for it, below 0, a fraction, no number
for (const n of [2 ** 32, 2 ** 32 + 5, -1, 0.5, NaN, Infinity, undefined]) {
  refused(1, () => adomvik.open([n]));
  refused(1, () => adomvik.openPlans([Plan.standAlone(n)]));
  refused(1, () => adomvik.openPlans([Plan.host(n)]));
  refused(1, () => adomvik.openPlans([Plan.garden(n, BQ7791500, 1)]));
  refused(1, () => adomvik.openPlans([Plan.garden(3, n, 1)]));
  refused(1, () => adomvik.openPlans([Plan.garden(3, BQ7791500, n)]));
  refused(2, () => stack.sample(n, quiet, five));
  refused(2, () => stack.listing(n));
  refused(4, () => stack.sample(1, { ...quiet, elapsed: n }, five));
  refused(5, () => stack.sample(1, { ...quiet, thermistor: n }, five));
  refused(5, () => stack.sample(1, { ...quiet, load: n }, five));
  refused(5, () => stack.sample(1, quiet, [n, ...five.slice(1)]));
}
for (const n of [2 ** 31, -(2 ** 31) - 1, 2 ** 32, 0.5, NaN]) refused(5, () => stack.sample(1, { ...quiet, shunt: n }, five));
for (const n of [256, -1, 0.5, NaN]) assert.throws(() => stack.frame([n, 0, 0, 214]), RangeError);
refused(1, () => adomvik.open([]));
refused(1, () => adomvik.open(Array(300).fill(5)));
refused(1, () => adomvik.open([256 + 5]));
refused(1, () => adomvik.openPlans([]));
refused(1, () => adomvik.openPlans(Array(300).fill(Plan.host(5))));
refused(1, () => adomvik.openPlans([new Plan()]));
for (const cells of [4, 11, 256, 256 + 5]) refused(1, () => adomvik.openPlans([Plan.host(5), Plan.standAlone(cells)]));
for (const cells of [2, 6, 256 + 3]) refused(1, () => adomvik.openPlans([Plan.host(5), Plan.garden(cells, BQ7791500, 1)]));
for (const row of [3, 255, 256]) refused(1, () => adomvik.openPlans([Plan.garden(3, row, 1)]));
for (const trigger of [0, 256, 257]) refused(1, () => adomvik.openPlans([Plan.garden(3, BQ7791500, trigger)]));
for (const none of [5, 256 + 5, undefined, {}]) assert.throws(() => adomvik.openPlans([none]), TypeError);
refused(6, () => stack.frame([]));
refused(7, () => stack.frameInto([2, 0, 0, 214], new Uint8Array(3)));
const crossed = adomvik.open([5]);
crossed.frame([3, 9, 15, 45]);
refused(13, () => crossed.frame([3, 11, 65, 234]));
assert.throws(() => stack.record(2), RangeError);
assert.throws(() => stack.setRecord(0, five), RangeError);
assert.throws(() => stack.first(3), RangeError);
// rows that no opening has made
for (const boards of [0, 1, 16, 17, 256]) refused(1, () => adomvik.row(boards).up());
refused(1, () => stack.first(0).up());
// a list longer than the memory as it starts
refused(3, () => stack.sample(1, quiet, Array(100000).fill(3900)));
assert.deepEqual(stack.record(0), before);

// a record is kept and given back
const other = adomvik.open([5, 6]);
other.sample(1, { ...quiet, thermistor: 900 }, five);
stack.setRecord(0, other.record(0));
assert.equal(stack.frame([2, 0, 0, 214])[2], 16);
assert.deepEqual(stack.up(), { line: true, looked: 1 });

// its journal goes with it, and its number of samples, which is held at the top
const hot = (number) => ({ cause: 4, cell: 0, number });
assert.deepEqual(stack.listing(1), [hot(1)]);
const late = other.record(0);
late.set([254, 255, 255, 255], 132);
other.setRecord(0, late);
for (const thermistor of [2000, 900, 2000, 900]) other.sample(1, { ...quiet, thermistor }, five);
assert.deepEqual(other.listing(1), [hot(1), hot(2 ** 32 - 1), hot(2 ** 32 - 1)]);

// a host board: its register 1, which a stand-alone board has not
const hosted = adomvik.openPlans([Plan.host(5), Plan.standAlone(6)]);
refused(9, () => stack.frame([2, 1, 0, 195]));
refused(9, () => hosted.frame([5, 1, 6, 199]));
refused(10, () => hosted.frame([3, 1, 8, 144]));
assert.deepEqual(hosted.read(), { line: false, chg: false, dsg: false, board: 0, cell: 0 });
assert.deepEqual(hosted.up(), { line: false, looked: 2 });
assert.deepEqual([...hosted.frame([3, 1, CONTROL_DSG | CONTROL_CHG, 186])], [3, 1, 6, 186]);
assert.deepEqual(hosted.read(), { line: false, chg: true, dsg: true, board: 0, cell: 0 });
assert.deepEqual(hosted.sample(1, { ...quiet, shunt: 60001 }, five), { status: 1, bled: 0 });
assert.deepEqual(hosted.sample(1, quiet, five), { status: 1, bled: 0 });
assert.deepEqual(hosted.up(), { line: true, looked: 1 });
assert.equal(hosted.frame([2, 1, 0, 195])[2], 0);
hosted.frame([3, 1, CONTROL_CLEAR, 175]);
assert.equal(hosted.frame([2, 0, 0, 214])[2], 1);
hosted.frame([3, 1, 0, 168]);
assert.equal(hosted.frame([2, 0, 0, 214])[2], 0);

// the tally of its short circuit: read by two bytes, and not written
assert.deepEqual([...hosted.frame([2, 16, 0, 129])], [2, 16, 1, 134]);
assert.deepEqual([...hosted.frame([2, 24, 0, 41])], [2, 24, 0, 41]);
refused(10, () => hosted.frame([2, 16, 1, 134]));
refused(9, () => hosted.frame([3, 16, 0, 234]));
refused(9, () => hosted.frame([2, 15, 0, 21]));
const kept = hosted.record(0);
assert.deepEqual([...kept.subarray(122, 132)], [1, 0, 0, 0, 0, 0, 0, 0, 0, 0]);
hosted.setRecord(0, [...kept.subarray(0, 122), 255, 255, ...kept.subarray(124)]);
assert.deepEqual(hosted.sample(1, { ...quiet, shunt: 60001 }, five), { status: 1, bled: 0 });
assert.equal(hosted.frame([2, 16, 0, 129])[2], 255);
assert.equal(hosted.frame([2, 24, 0, 41])[2], 255);

// the journal of both short circuits, with numbers lent for them, for more, and for less
const lent = (many) => new Uint32Array(many).fill(7);
const both = [0, 0, 1, 0, 0, 3];
assert.deepEqual(hosted.listing(1), [{ cause: 0, cell: 0, number: 1 }, { cause: 0, cell: 0, number: 3 }]);
for (const many of [6, 7, 8, 9, 384, 385, 1000]) {
  const words = lent(many);
  assert.equal(hosted.listingInto(1, words), 2);
  assert.deepEqual([...words], [...both, ...lent(many - 6)]);
}
for (const [number, board, many] of [[14, 1, 0], [14, 1, 3], [14, 1, 5], [2, 0, 6], [2, 3, 6], [2, 3, 0]]) {
  const words = lent(many);
  refused(number, () => hosted.listingInto(board, words));
  assert.deepEqual(words, lent(many));
}
assert.deepEqual(hosted.listing(2), []);
assert.equal(hosted.listingInto(2, lent(0)), 0);
for (const board of [0, 3]) refused(2, () => hosted.listing(board));
for (const none of [[...lent(6)], new Int32Array(6), new Uint8Array(24), undefined, 6]) {
  assert.throws(() => hosted.listingInto(1, none), TypeError);
}

// a garden board: counts of samples, and of the registers only 0 and those of the tallies
const garden = adomvik.openPlans([Plan.garden(3, BQ7791500, 2), Plan.garden(5, BQ7791504, 255)]);
const three = [3600, 3600, 3600];
assert.deepEqual(garden.read(), { line: true, chg: false, dsg: true, board: 0, cell: 0 });
assert.deepEqual(garden.up(), { line: true, looked: 1 });
assert.deepEqual([...garden.frame([2, 0, 0, 214])], [2, 0, 68, 13]);
refused(10, () => garden.frame([2, 0, 1, 209]));
refused(9, () => garden.frame([2, 1, 0, 195]));
refused(9, () => garden.frame([2, 6, 0, 168]));
refused(9, () => garden.frame([3, 0, 0, 189]));
refused(3, () => garden.sample(1, quiet, five));
assert.deepEqual(garden.sample(1, quiet, three), { status: 68, bled: 0 });
assert.deepEqual(garden.sample(1, quiet, three), { status: 192, bled: 0 });
assert.deepEqual(garden.up(), { line: true, looked: 2 });
assert.deepEqual(garden.first(1).up(), { line: false, looked: 1 });
// a bad board north of a latch is seen
const north = garden.record(1);
garden.setRecord(1, Array(north.length).fill(0));
refused(1, () => garden.up());
garden.setRecord(1, north);
const over = [3600, 4201, 3600];
assert.deepEqual(garden.sample(1, quiet, over), { status: 192, bled: 0 });
assert.deepEqual(garden.sample(1, quiet, over), { status: 68, bled: 0 });
assert.equal(garden.frame([2, 18, 0, 171])[2], 1);
assert.deepEqual(garden.listing(1), [{ cause: 2, cell: 2, number: 4 }]);
assert.deepEqual(garden.listing(2), []);
assert.equal(garden.sample(2, quiet, five).status, 68);

// a recording: the page's day, in memory that is just enough for it
const plans = [Plan.standAlone(5)];
const day = adomvik.openPlans(plans);
const recorder = adomvik.recorder(46);
const hex = (bytes) => Buffer.from(bytes).toString("hex");
const four = [4000, 4000, 4000, 4000, 4000];
assert.equal(recorder.verdict, 15);
assert.equal(recorder.noteReading(day.read()), 15);
assert.equal(recorder.recording().length, 0);
recorder.begin(plans);
assert.equal(recorder.noteSample(1, quiet, four, day.sample(1, quiet, four)), 0);
assert.equal(recorder.noteOther(), 15);
assert.equal(recorder.noteReading(day.read()), 0);
const page = "01000100020000000005011601e803000000d00700000000a00fa00fa00fa00fa00f00c000000300000001010000";
assert.equal(hex(recorder.recording()), page);
assert.equal(recorder.noteReading(day.read()), 16);
assert.equal(recorder.noteFrame([], new Uint8Array(3), new Refusal(6)), 15);
assert.equal(recorder.noteFrame([], new Uint8Array(4), new Refusal(6)), 16);
assert.equal(hex(recorder.memory()), page);

// where it cannot begin, or not go on
refused(16, () => recorder.begin(plans, 9));
assert.equal(recorder.noteReading(day.read()), 16);
refused(15, () => recorder.begin([Plan.garden(3, BQ7791500, 1)]));
assert.equal(recorder.noteReading(day.read()), 15);
refused(1, () => recorder.begin([]));
refused(1, () => recorder.begin(Array(17).fill(Plan.host(5))));
refused(1, () => recorder.begin([Plan.garden(3, BQ7791500, 1), new Plan()]));
assert.equal(recorder.recording().length, 0);
assert.equal(hex(recorder.memory()), page);
for (const none of [5, undefined, {}]) assert.throws(() => recorder.begin([none]), TypeError);
for (const room of [-1, 47, 0.5, NaN]) assert.throws(() => recorder.begin(plans, room), RangeError);
for (const bytes of [-1, 2 ** 20 + 1, 0.5, NaN, undefined]) assert.throws(() => adomvik.recorder(bytes), RangeError);
refused(16, () => adomvik.recorder(0).begin(plans));

// numbers that fit no field
recorder.begin(plans);
for (const n of [256, 2 ** 32, -1, 0.5, NaN, undefined]) {
  assert.equal(recorder.noteSample(n, quiet, four, new Refusal(2)), 15);
  assert.equal(recorder.noteSample(1, { ...quiet, load: n }, four, new Refusal(5)), 15);
  assert.throws(() => recorder.noteFrame([n], new Uint8Array(4)), RangeError);
}
for (const n of [65536, 2 ** 32, -1, 0.5, NaN, undefined]) {
  assert.equal(recorder.noteSample(1, { ...quiet, thermistor: n }, four, new Refusal(5)), 15);
  assert.equal(recorder.noteSample(1, quiet, [n], new Refusal(3)), 15);
}
assert.equal(recorder.noteSample(1, quiet, Array(100000).fill(1), new Refusal(3)), 15);
assert.equal(hex(recorder.recording()), "01000100000000000005");

// it is kept and given back, and goes on
const long = adomvik.recorder(65540);
long.begin(plans);
for (let acts = 0; acts < 8190; acts++) assert.equal(long.noteReading(day.read()), 0);
const again = adomvik.recorder(65540);
again.restore(long.state(), long.memory());
assert.equal(again.noteReading(new Refusal(1)), 0);
assert.equal(again.recording().length, 10 + 8 * 8190 + 3);
assert.equal(again.noteReading(new Refusal(1)), 16);
assert.deepEqual([...again.memory().subarray(65533)], [0, 0, 0, 0, 0, 0, 0]);
assert.throws(() => again.restore(five, long.memory()), RangeError);
assert.throws(() => again.restore(long.state(), five), RangeError);
assert.throws(() => again.restore(Array(8).fill(256), long.memory()), RangeError);
// a recording is checked on records of any bytes
const right = { right: true, place: 0 };
const fromHex = (text) => Buffer.from(text, "hex");
function unread(number, at, act) {
  refused(number, act);
  assert.throws(act, (why) => why.at === at && why.message.endsWith(number === 1 ? `has not; the recording has ${at}` : `, at byte ${at}`));
}
const lentRow = adomvik.row(2);
lentRow.setRecord(0, Array(780).fill(255));
lentRow.setRecord(1, Array(780).fill(254));
assert.deepEqual(lentRow.check(fromHex(page)), right);
assert.deepEqual(lentRow.check([...fromHex(page)]), right);
assert.deepEqual(lentRow.record(0).subarray(0, 121), day.record(0).subarray(0, 121));
assert.deepEqual(lentRow.record(1), Uint8Array.from(Array(780).fill(254)));
assert.deepEqual(lentRow.check(recorder.recording()), right);
assert.deepEqual(lentRow.check(long.recording()), right);
assert.deepEqual(lentRow.check(again.recording()), { right: false, place: 8191 });
// the stack behind the wrong act can be asked
const wrongPage = page.replace("0300000001010000", "0300000000010000");
assert.deepEqual(lentRow.check(fromHex(wrongPage)), { right: false, place: 2 });
assert.deepEqual(lentRow.first(1).read(), { line: false, chg: true, dsg: true, board: 0, cell: 0 });
const leftRow = [lentRow.record(0), lentRow.record(1)];
unread(17, 41, () => lentRow.check(fromHex(page.slice(0, -2))));
unread(17, 0, () => lentRow.check([]));
unread(18, 0, () => lentRow.check(fromHex("02" + page.slice(2))));
unread(19, 46, () => lentRow.check(fromHex(page + "00")));
unread(1, 3, () => lentRow.check(fromHex("010003000000000000050005010a")));
unread(1, 1, () => lentRow.first(0).check(fromHex(page)));
unread(17, 13, () => lentRow.check(fromHex("01000300000000000005000501")));
for (const n of [256, -1, 0.5, NaN, "1", undefined]) assert.throws(() => lentRow.check([n]), RangeError);
for (const none of [undefined, 5, null]) assert.throws(() => lentRow.check(none), TypeError);
assert.deepEqual([lentRow.record(0), lentRow.record(1)], leftRow);
// one longer than the memory as it starts
const readings = 200000;
const huge = Buffer.concat([fromHex("01000100"), Buffer.from(Uint32Array.of(readings).buffer), fromHex("0005"),
  Buffer.alloc(8 * readings, fromHex("0300000001010000"))]);
assert.deepEqual(lentRow.check(huge), right);
huge[huge.length - 1] = 1;
assert.deepEqual(lentRow.check(huge), { right: false, place: readings });
console.log("no difference");
