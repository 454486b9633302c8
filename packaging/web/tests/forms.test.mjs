// Forms of recordings, and the curve of the quality.
import assert from 'node:assert';
import test from 'node:test';
import { CODES, FORMS, formsOf, optionsOf } from '../page/forms.mjs';
import { Curve, lineReader } from '../page/quality.mjs';
import { saidOf } from '../page/curve.mjs';
import { Heap } from '../page/heap.mjs';
import { textOf } from '../page/station.mjs';

const turned = (form, list) => {
  const bytes = Uint8Array.from(list);
  return [...new Int8Array(FORMS[form].turnFor(bytes)(bytes).buffer)];
};

test('the four line codes', () => {
  const words = CODES.map((it) => `${it.line} ${it.g2}`);
  assert.deepEqual(words, ['nrz-l inverted', 'nrz-l plain', 'nrz-m inverted', 'nrz-m plain']);
});

test('each form becomes signed bytes', () => {
  assert.deepEqual(turned('signed', [1, 255]), [1, -1]);
  assert.deepEqual(turned('unsigned', [0, 128, 255]), [-128, 0, 127]);
  assert.deepEqual(turned('bits', [0, 1]), [-64, 64]);
  assert.deepEqual(turned('packed', [0b10000001]), [64, -64, -64, -64, -64, -64, -64, 64]);
  assert.deepEqual(turned('s16le', [0xe8, 0x03, 0x18, 0xfc]), [64, -64], '1000 and -1000');
  assert.deepEqual(turned('s16be', [0x03, 0xe8, 0xfc, 0x18]), [64, -64]);
  const floats = new Uint8Array(Float32Array.of(0.5, -1.5, NaN, 0).buffer);
  assert.deepEqual(turned('f32le', floats), [64, -127, 0, 0], 'the mean height is 64, and what is greater ends at 127');
  assert.deepEqual(turned('f32be', [...floats].map((_, at) => floats[(at & ~3) + 3 - (at & 3)])), [64, -127, 0, 0]);
});

test('frames are taken out of frames with their marker', () => {
  const cadu = new Uint8Array(2048);
  for (const at of [0, 1024]) cadu.set([0x1a, 0xcf, 0xfc, 0x1d, 0x40 + at / 1024], at);
  const frames = FORMS.cadu.turnFor(cadu)(cadu);
  assert.deepEqual([frames.length, frames[0], frames[892]], [1784, 0x40, 0x41]);
  assert.deepEqual(formsOf(cadu), ['cadu']);
});

/** Numbers that a generator with a seed gives, from -1 to 1. */
function* noise(seed) {
  for (;;) {
    seed = (Math.imul(seed, 1103515245) + 12345) >>> 0;
    yield seed / 2 ** 31 - 1;
  }
}

test('what bytes look like', () => {
  const numbers = noise(7);
  const levels = Array.from({ length: 16000 }, () => (numbers.next().value > 0 ? 1 : -1) + 0.4 * numbers.next().value);
  assert.equal(formsOf(new Uint8Array(Float32Array.from(levels).buffer))[0], 'f32le');
  assert.ok(formsOf(new Uint8Array(Int16Array.from(levels, (it) => 4000 * it).buffer)).includes('s16le'));
  assert.deepEqual(formsOf(Uint8Array.from(levels, (it) => Number(it > 0))), ['bits']);
  assert.deepEqual(formsOf(Uint8Array.from(levels, (it) => 128 + 60 * it)), ['signed', 'unsigned', 'packed']);
  assert.equal(formsOf(new Uint8Array(1000))[0], 'signed', 'silence is no bits');
});

test('the words of a found form', () => {
  assert.deepEqual(optionsOf({ form: 'unsigned', code: CODES[3] }), ['--line', 'nrz-m', '--g2', 'plain']);
  assert.deepEqual(optionsOf({ form: 'cadu', code: null }), ['--input', 'frames']);
});

test('the curve counts by places', () => {
  const curve = new Curve(1600 / 16384);
  const lines = lineReader((line) => curve.take(line));
  const first = 'window 0 at 0 polarity + restored 1 2 3 4\nwindow 1 at 805 polarity - lost 2\n';
  const text = `${first}window 2 at 806 polarity - restored 1 17 9 13\nsymbols 1600 frames 3\n`;
  for (const it of text) lines(new TextEncoder().encode(it));
  assert.deepEqual(curve.buckets[0], { frames: 1, lost: 0, redecoded: 0, corrected: 10 });
  assert.deepEqual(curve.buckets[80], { frames: 2, lost: 1, redecoded: 1, corrected: 40 });
  assert.deepEqual(curve.total, { frames: 3, lost: 1, redecoded: 1, corrected: 50 });
  const [lost, again, corrected] = saidOf(curve.total);
  assert.deepEqual(lost, { key: 'quality.lost', values: { frames: 3, lost: 1, share: '33' } });
  assert.deepEqual(again, { key: 'quality.again', values: { count: 1 } });
  assert.deepEqual(corrected, { key: 'quality.corrected', values: { mean: '25.0', most: 64 } });
  assert.deepEqual(saidOf({ frames: 0, lost: 0, redecoded: 0, corrected: 0 }), [{ key: 'quality.none' }]);
});

test('of frames, the counters of each channel tell how many are missing', () => {
  const curve = new Curve(4);
  const counters = [[7, 16777214], [63, 5], [7, 1], [63, 6], [63, 6 + 9000]];
  counters.forEach(([channel, counter], at) => {
    curve.take(`frame ${at} vc ${channel} counter ${counter} spacecraft 7 replay 0 pointer 0`);
  });
  assert.deepEqual(curve.total, { frames: 7, lost: 2, redecoded: 0, corrected: 0 });
  assert.deepEqual(curve.buckets[80], { frames: 3, lost: 2, redecoded: 0, corrected: 0 }, 'two before the third frame');
  assert.deepEqual(saidOf(curve.total, true)[1], { key: 'quality.counters' });
});

test('blocks of the heap: aligned, apart, within the memory, and used again', () => {
  const memory = new WebAssembly.Memory({ initial: 1, maximum: 40 });
  const heap = new Heap(memory, 100);
  const numbers = noise(3);
  const taken = new Map();
  for (let step = 0; step < 3000; step += 1) {
    if (numbers.next().value > 0 && taken.size < 60) {
      const size = Math.floor(Math.abs(numbers.next().value) ** 6 * 60000) + 1;
      const place = heap.take(size);
      if (place) taken.set(place, size);
    } else if (taken.size) {
      const [place] = taken.keys();
      const size = taken.get(place);
      taken.delete(place);
      if (numbers.next().value > 0.3) heap.give(place);
      else {
        const next = heap.resize(place, size, 2 * size);
        taken.set(next || place, next ? 2 * size : size);
      }
    }
    const sorted = [...taken].sort((a, b) => a[0] - b[0]);
    sorted.forEach(([place, size], at) => {
      assert.ok(place % 16 === 0 && place >= 112 && place + size <= memory.buffer.byteLength);
      assert.ok(at === 0 || sorted[at - 1][0] + sorted[at - 1][1] <= place, 'they lie apart');
    });
  }
  for (const place of taken.keys()) heap.give(place);
  assert.equal(heap.used, 0);
  assert.equal(heap.take(1e9), 0, 'the memory ends');
  assert.throws(() => heap.give(112));
});

test('a word with a line end is refused', () => assert.throws(() => textOf(['show', '1\n2'])));
