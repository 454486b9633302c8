// node --experimental-wasm-memory64 radio.mjs DEMODULATOR FOLDER MODULES: recordings of complex samples by lr_radio,
// and by `lritdemod`: the same bytes. A signal of FOLDER's recording in each form, also with a stretch of drawn bytes,
// drawn bytes alone, NaN and infinities, and settings that are refused. Then the host fails, and memory is refused.
import { spawnSync } from 'node:child_process';
import fs from 'node:fs';
import path from 'node:path';
import { BytesInput } from '../../packaging/web/page/devices.mjs';
import { SAMPLE_FORMS } from '../../packaging/web/page/iq.mjs';
import { modulated } from '../../packaging/web/page/modulate.mjs';
import { Station } from '../../packaging/web/page/station.mjs';

const [demodulator, folder, modules] = process.argv.slice(2);
const MOST_OUT = 1 << 28;
const [REFUSED, INPUT_FAILED, OUTPUT_FAILED, NO_MEMORY] = [2, 3, 5, 9];
const USUAL = { rate: 2_400_000, symbols: 927_000, rollOff: 0.3 };
const SENT_SYMBOLS = 2_000_000;
const DRAWN_BYTES = 1_000_001; // (a torn sample at the end)
const ABSURD = [NaN, Infinity, -Infinity, 3e38, -3e38, 1e-45, 0];

const radio = () => new Station(new WebAssembly.Module(fs.readFileSync(path.join(modules, 'lr_radio.wasm'))));

/** Numbers from 0 to 255 that a generator with a seed gives. */
function* draws(seed) {
  for (let state = seed; ; ) {
    state = (Math.imul(state, 1664525) + 1013904223) >>> 0;
    yield state >>> 24;
  }
}

function drawnBytes(seed, count) {
  const drawn = draws(seed);
  return Uint8Array.from({ length: count }, () => drawn.next().value);
}

/** Floats among which some are none. */
function absurdFloats(signal) {
  const floats = new Float32Array(signal.buffer.slice(0));
  for (let at = 0; at < 60_000; at += 1) floats[floats.length / 2 + at] = ABSURD[at % ABSURD.length];
  return new Uint8Array(floats.buffer);
}

/** The same samples in another form. */
const turned = {
  u8: (bytes) => bytes,
  s8: (bytes) => bytes.map((it) => it ^ 0x80),
  s16: (bytes) => new Uint8Array(Int16Array.from(bytes, (it) => 256 * it - 32_640).buffer),
  f32: (bytes) => new Uint8Array(Float32Array.from(bytes, (it) => (it - 127.5) / 128).buffer),
};

/** What lr_radio answers. */
function answered(station, { bytes, form, settings = USUAL, cut = Infinity, left = Infinity }) {
  const parts = [];
  const input = new BytesInput(bytes);
  let count = 0;
  const devices = {
    input: { take: (into) => (input.place < cut ? input.take(into.subarray(0, 70_001)) : -1) },
    put: (output, piece) => {
      if (output !== 1) return;
      if (count >= left) throw new Error('no more is taken');
      count += piece.length;
      parts.push(piece);
    },
    told: () => {},
  };
  const status = station.radio({ ...settings, number: SAMPLE_FORMS[form].number }, devices);
  return { status, out: Buffer.concat(parts) };
}

/** What the program answers. */
function programs({ bytes, form, settings = USUAL }) {
  const { rate, symbols, rollOff } = settings;
  const words = ['--rate', rate, '--symbols', symbols, '--roll-off', rollOff, '--format', form, '--quiet'].map(String);
  const done = spawnSync(demodulator, words, { input: bytes, maxBuffer: MOST_OUT });
  return { status: done.status, out: done.stdout };
}

const symbols = new Uint8Array(fs.readFileSync(path.join(folder, 'recording'))).subarray(0, SENT_SYMBOLS);
const sent = new Uint8Array(Buffer.concat([...modulated(symbols)]));
const broken = sent.slice();
broken.set(drawnBytes(5, 400_000), 1_000_000);
const signals = Object.entries(turned).map(([form, turn]) => ({ form, bytes: turn(sent) }));
const all = [
  ...signals,
  ...Object.entries(turned).map(([form, turn]) => ({ form, bytes: turn(broken) })),
  { form: 'f32', bytes: absurdFloats(signals[3].bytes) },
  ...Object.keys(turned).map((form, seed) => ({ form, bytes: drawnBytes(seed + 1, DRAWN_BYTES) })),
  { form: 'u8', bytes: new Uint8Array(0) },
  { form: 'u8', bytes: sent, settings: { ...USUAL, rollOff: 0.5 } },
  { form: 's16', bytes: signals[2].bytes, settings: { ...USUAL, symbols: 293_883 } },
  ...[{ rate: 0 }, { rate: NaN }, { rate: 1e6 }, { symbols: -1 }, { symbols: 128 }, { rollOff: 2 }].map((it) => ({
    form: 'u8', bytes: sent, settings: { ...USUAL, ...it },
  })),
];
const station = radio();
let [same, symbolCount] = [0, 0];
for (const [place, one] of all.entries()) {
  const [answer, wanted] = [answered(station, one), programs(one)];
  if (answer.status !== wanted.status || Buffer.compare(answer.out, wanted.out)) {
    throw new Error(`case ${place}, ${one.form}: ${answer.status}, ${answer.out.length} bytes, and the program's are
      ${wanted.status}, ${wanted.out.length}`);
  }
  if (place < signals.length && answer.out.length < symbols.length - 20_000) throw new Error(`${one.form}: no lock`);
  if (station.heap.used) throw new Error('blocks are taken still');
  same += 1;
  symbolCount += answer.out.length;
}
const given = { form: 'u8', bytes: sent };
for (const [wanted, more] of [[INPUT_FAILED, { cut: 500_000 }], [OUTPUT_FAILED, { left: 100_000 }]]) {
  const { status } = answered(station, { ...given, ...more });
  if (status !== wanted) throw new Error(`status ${status}, not ${wanted}`);
}
let refused = 0;
for (let isDone = false; !isDone; refused += 1) {
  const it = radio();
  const take = it.heap.take.bind(it.heap);
  let asked = 0;
  it.heap.take = (bytes) => (asked++ === refused ? 0 : take(bytes));
  const { status } = answered(it, { ...given, bytes: sent.subarray(0, 200_000) });
  isDone = asked <= refused;
  if (status !== (isDone ? 0 : NO_MEMORY) || it.heap.used) throw new Error(`block ${refused} refused: ${status}`);
}
if (all.at(-1).settings.rollOff !== 2 || programs(all.at(-1)).status !== REFUSED) throw new Error('nothing is refused');
console.log(`${same} recordings of samples as lritdemod, ${symbolCount} symbols; refused at ${refused - 1} blocks`);
