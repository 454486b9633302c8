// Recordings of complex samples: what a file says of itself, the spectrum, and the signal that the page draws.
import assert from 'node:assert';
import test from 'node:test';
import { DOWNLINKS, iqOf, likelyForm, rateInName, complexNumbers, waveOf } from '../page/iq.mjs';
import { modulated, pulse } from '../page/modulate.mjs';
import { spectrumOf, transform } from '../page/spectrum.mjs';

const le = (number, size) => Array.from({ length: size }, (_, place) => Math.floor(number / 256 ** place) & 255);
const letters = (text) => [...text].map((it) => it.charCodeAt(0));
const chunk = (name, inside) => [...letters(name), ...le(inside.length, 4), ...inside];

/** A format chunk of a WAV. */
function format(kind, channels, bits, rate = 2_500_000, more = []) {
  const block = (channels * bits) / 8;
  return chunk('fmt ', [kind, channels, rate, rate * block, block, bits]
    .flatMap((it, place) => le(it, [2, 2, 4, 4, 2, 2][place])).concat(more));
}

const wave = (...parts) => Uint8Array.from([...letters('RIFF'), ...le(36, 4), ...letters('WAVE'), ...parts.flat()]);
const data = chunk('data', [1, 2, 3, 4]);

test('heads of WAV files', () => {
  const told = (kind, bits) => waveOf(wave(format(kind, 2, bits), data), 48);
  const where = { rate: 2_500_000, start: 44, end: 48 };
  assert.deepEqual(told(1, 8), { form: 'u8', ...where });
  assert.deepEqual(told(1, 16), { form: 's16', ...where });
  assert.deepEqual(told(3, 32), { form: 'f32', ...where });
  assert.equal(told(1, 24), null);
  assert.equal(told(6, 16), null);
  assert.equal(waveOf(wave(format(1, 1, 16), data), 48), null, 'one channel is no I and Q');
  const subformat = [...le(22, 2), ...le(16, 2), ...le(3, 4), ...le(3, 2), ...new Array(14).fill(0)];
  assert.equal(waveOf(wave(format(0xfffe, 2, 32, 1e6, subformat), data), 72)?.form, 'f32');
  const late = waveOf(wave(chunk('auxi', [1, 2, 3]), [0], format(1, 2, 16), data), 60);
  assert.deepEqual([late?.start, late?.end], [56, 60], 'chunks of an odd length have a byte after them');
});

test('heads of RIFF64, of streams, and broken ones', () => {
  const uncounted = [...letters('data'), 255, 255, 255, 255, 1, 2, 3, 4, 9, 9];
  const sizes = chunk('ds64', [...le(90, 8), ...le(4, 8), ...le(2, 8), ...le(0, 4)]);
  const long = wave(sizes, format(1, 2, 16), uncounted);
  long.set(letters('RF64'));
  assert.deepEqual(waveOf(long, long.length), { form: 's16', rate: 2_500_000, start: 80, end: 84 });
  const stream = wave(format(1, 2, 16), uncounted);
  assert.equal(waveOf(stream, stream.length)?.end, stream.length, 'as far as the file goes');
  for (const bytes of [wave(), wave(data), wave(format(1, 2, 16)), long.subarray(0, 70), Uint8Array.from([1, 2, 3])]) {
    assert.equal(waveOf(bytes, bytes.length), null);
  }
});

test('rates and forms in names', () => {
  const rates = {
    'SDRSharp_20261129_170020Z_1694100000Hz_2400000Hz_IQ.raw': 2.4e6,
    'baseband_2.4Msps.cu8': 2.4e6,
    '2026-11-29_17-00-20_2500000SPS_1694100000Hz.cs16': 2.5e6,
    'gqrx_20261129_170020_1694100000_1800000_fc.raw': 1.8e6,
    'goes 1024 kHz.iq': 1.024e6,
    'goes_1694100000Hz.wav': 0,
    'recording.raw': 0,
  };
  for (const [name, rate] of Object.entries(rates)) assert.equal(rateInName(name), rate, name);
  const quiet = new Uint8Array(1000).fill(128);
  const forms = ['a.cu8', 'a.cs8', 'a.cs16', 'a.cf32', 'a_1000000_fc.raw', 'a.iq'];
  assert.deepEqual(forms.map((it) => likelyForm(it, quiet)), ['u8', 's8', 's16', 'f32', 'f32', 'u8']);
});

test('what is taken for a recording of samples', () => {
  const bytes = new Uint8Array(1000).fill(128);
  assert.deepEqual(iqOf('a_2400000Hz.raw', bytes, 5000), { form: 'u8', rate: 2.4e6, start: 0, end: 5000 });
  assert.deepEqual(iqOf('a.cs16', bytes, 5000), { form: 's16', rate: 0, start: 0, end: 5000 });
  for (const name of ['a.raw', 'a_927000sps.soft', 'a.bin']) assert.equal(iqOf(name, bytes, 5000), null, name);
  assert.equal(iqOf('a.cu8', new Uint8Array(0), 0), null);
});

test('the numbers of samples', () => {
  const told = (list, form) => {
    const { i, q } = complexNumbers(list, form, 9);
    return [[...i], [...q]];
  };
  assert.deepEqual(told(Uint8Array.of(0, 255, 128), 'u8'), [[-127.5 / 128], [127.5 / 128]]);
  assert.deepEqual(told(Uint8Array.of(128, 64), 's8'), [[-1], [0.5]]);
  assert.deepEqual(told(new Uint8Array(Int16Array.of(-32768, 16384).buffer), 's16'), [[-1], [0.5]]);
  assert.deepEqual(told(new Uint8Array(Float32Array.of(0.5, NaN, -Infinity, 2).buffer), 'f32'), [[0.5, 0], [0, 2]]);
});

test('the transform is that of its definition', () => {
  const count = 16;
  const i = Float64Array.from({ length: count }, (_, at) => Math.sin(at * at));
  const q = Float64Array.from({ length: count }, (_, at) => Math.cos(3 * at));
  const [real, imaginary] = [i.slice(), q.slice()];
  transform(real, imaginary);
  for (let place = 0; place < count; place += 1) {
    let [a, b] = [0, 0];
    for (let at = 0; at < count; at += 1) {
      const angle = (-2 * Math.PI * place * at) / count;
      a += i[at] * Math.cos(angle) - q[at] * Math.sin(angle);
      b += i[at] * Math.sin(angle) + q[at] * Math.cos(angle);
    }
    assert.ok(Math.hypot(real[place] - a, imaginary[place] - b) < 1e-9);
  }
});

test('a carrier stands in the spectrum where it is', () => {
  const turn = (at) => (2 * Math.PI * at * 3) / 16;
  const i = Float64Array.from({ length: 2048 }, (_, at) => Math.cos(turn(at)));
  const spectrum = spectrumOf({ i, q: Float64Array.from(i, (_, at) => Math.sin(turn(at))) });
  assert.equal(spectrum.indexOf(Math.max(...spectrum)), spectrum.length / 2 + (3 / 16) * spectrum.length);
  assert.equal(spectrumOf(complexNumbers(new Uint8Array(10), 'u8', 5)).length, 0);
});

test('the pulse has the energy 1, and none at the other symbols behind a filter of its form', () => {
  const parts = 16;
  const row = Array.from({ length: 48 * parts + 1 }, (_, at) => pulse(at / parts - 24, 0.3));
  const behind = (shift) => row.reduce((sum, it, at) => sum + (it * (row[at + shift * parts] ?? 0)) / parts, 0);
  assert.ok(Math.abs(behind(0) - 1) < 1e-3);
  for (const shift of [1, 2, 3, 7]) assert.ok(Math.abs(behind(shift)) < 1e-3, `${shift}`);
  assert.ok(Math.abs(pulse(1 / 1.2, 0.3) - pulse(1 / 1.2 + 1e-6, 0.3)) < 1e-4, 'it has no gap');
});

test('the drawn signal is as wide as its symbols, and always the same', () => {
  let state = 1;
  const symbols = Uint8Array.from({ length: 20_000 }, () => {
    state = (Math.imul(state, 1664525) + 1013904223) >>> 0;
    return state >>> 31 ? 64 : 192;
  });
  const made = () => Uint8Array.from([...modulated(symbols)].flatMap((it) => [...it]));
  const bytes = made();
  assert.deepEqual(bytes, made());
  const { i, q } = complexNumbers(bytes, 'u8', 40_000);
  const rms = Math.sqrt(i.reduce((sum, it, at) => sum + it * it + q[at] ** 2, 0) / (2 * i.length)) * 128;
  assert.ok(Math.abs(rms - 30) < 1, `rms ${rms}`);
  const spectrum = spectrumOf({ i, q });
  const mean = (from) => spectrum.slice(from, from + 20).reduce((sum, it) => sum + it / 20, 0);
  const near = (0.5 + (0.25 * DOWNLINKS['goes-hrit'].symbols) / 2_400_000) * spectrum.length;
  assert.ok(mean(Math.floor(near)) > mean(5) + 3, 'above the noise within its band');
});
