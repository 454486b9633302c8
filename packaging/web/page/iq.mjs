// Recordings of a radio's complex samples, I and Q in turn: what a file says of itself by its head, by its name and by
// its bytes, and the numbers of a sample.
import { formsOf } from './forms.mjs';
import { viewOf } from './xrit.mjs';

export const IQ_HEAD_BYTES = 65_536; // in which the samples of a WAV begin
const [LEAST_RATE, MOST_RATE] = [1e5, 1e8]; // that a name may say
const WAVE_FRONT_BYTES = 12; // of a WAV, before its chunks
const WAVE_CHUNK_BYTES = 8; // before what a chunk holds
const [WAVE_FORMAT_BYTES, WAVE_SIZES_BYTES, SUBFORMAT_PLACE] = [16, 16, 24];
const [WHOLE_NUMBERS, FLOATS, EXTENSIBLE, UNCOUNTED] = [1, 3, 0xfffe, 0xffff_ffff];
const RATE_IN_NAME = /(?<![\d.])(\d+(?:\.\d+)?)\s*(M|k)?(?:sps|SPS|Sps|S\/s|Hz|HZ)(?![a-z])/g;
const OF_GQRX = /_(\d+)_fc\.raw$/; // (it writes the rate without a unit)
const NAME_ENDINGS = [
  { ending: /\.(c?u8|bin)$/i, form: 'u8' },
  { ending: /\.c?s8$/i, form: 's8' },
  { ending: /\.(c?s16|c16)$/i, form: 's16' },
  { ending: /\.(c?f32|cfile|fc32)$|_fc\.raw$/i, form: 'f32' },
];
const ENDINGS_OF_SYMBOLS = /\.(soft|s|sym)$/i;
const [LEAST_MEAN, MOST_MEAN] = [120, 135]; // of unsigned bytes

/**
 * @typedef {object} SampleForm
 * @property {number} number by which the demodulator knows it
 * @property {number} bytes of a sample
 * @property {(view: DataView, place: number) => number} read one of a sample's two numbers, where 1 is the greatest
 * @typedef {{form: string, rate: number, start: number, end: number}} Iq rate: 0 where it isn't known
 */

/** @type {Record<string, SampleForm>} */
export const SAMPLE_FORMS = {
  u8: { number: 0, bytes: 2, read: (view, place) => (view.getUint8(place) - 127.5) / 128 },
  s8: { number: 1, bytes: 2, read: (view, place) => view.getInt8(place) / 128 },
  s16: { number: 2, bytes: 4, read: (view, place) => view.getInt16(2 * place, true) / 32768 },
  f32: { number: 3, bytes: 8, read: (view, place) => view.getFloat32(4 * place, true) },
};

/**
 * The downlinks of `lritdemod`.
 * @type {Record<string, {symbols: number, rollOff: number}>}
 */
export const DOWNLINKS = {
  'goes-hrit': { symbols: 927_000, rollOff: 0.3 },
  'gk2a-lrit': { symbols: 128_000, rollOff: 0.5 },
  'goes-lrit': { symbols: 293_883, rollOff: 0.5 },
};

/**
 * @param {Uint8Array} bytes
 * @param {number} from
 * @param {string} name
 */
const hasName = (bytes, from, name) => [...name].every((it, place) => bytes[from + place] === it.charCodeAt(0));

/**
 * The form that a WAV's format chunk says, or null where that is none of samples.
 * @param {DataView} view
 * @param {number} at
 * @param {number} size
 */
function waveForm(view, at, size) {
  if (view.getUint16(at + 2, true) !== 2) return null;
  const stated = view.getUint16(at, true);
  const isLong = stated === EXTENSIBLE && size > SUBFORMAT_PLACE && at + SUBFORMAT_PLACE + 2 <= view.byteLength;
  const kind = isLong ? view.getUint16(at + SUBFORMAT_PLACE, true) : stated;
  const bits = view.getUint16(at + 14, true);
  if (kind === WHOLE_NUMBERS) return bits === 8 ? 'u8' : bits === 16 ? 's16' : null;
  return kind === FLOATS && bits === 32 ? 'f32' : null;
}

/**
 * What the head of a WAV of two channels says, RIFF64 too; null where it is none.
 * @param {Uint8Array} head the first bytes of the file
 * @param {number} size of the file
 * @returns {Iq | null}
 */
export function waveOf(head, size) {
  if (!['RIFF', 'RF64'].some((it) => hasName(head, 0, it)) || !hasName(head, WAVE_CHUNK_BYTES, 'WAVE')) return null;
  const view = viewOf(head);
  let [form, rate, counted] = [/** @type {string | null} */ (null), 0, 0];
  for (let at = WAVE_FRONT_BYTES; at + WAVE_CHUNK_BYTES <= head.length; ) {
    const length = view.getUint32(at + 4, true);
    const inside = at + WAVE_CHUNK_BYTES;
    const holds = (/** @type {number} */ least) => length >= least && inside + least <= head.length;
    if (hasName(head, at, 'fmt ') && holds(WAVE_FORMAT_BYTES)) {
      form = waveForm(view, inside, length);
      rate = view.getUint32(inside + 4, true);
    } else if (hasName(head, at, 'ds64') && holds(WAVE_SIZES_BYTES)) {
      counted = Number(view.getBigUint64(inside + 8, true));
    } else if (hasName(head, at, 'data')) {
      const bytes = (length === UNCOUNTED ? counted : length) || size;
      return form ? { form, rate, start: inside, end: Math.min(size, inside + bytes) } : null;
    }
    at = inside + length + (length % 2);
  }
  return null;
}

/**
 * The rate of samples in a file's name, as SDR programs write it, or 0. (A carrier's frequency stands there too.)
 * @param {string} name
 * @returns {number}
 */
export function rateInName(name) {
  const factors = /** @type {Record<string, number>} */ ({ M: 1e6, k: 1e3 });
  const gqrx = OF_GQRX.exec(name);
  if (gqrx) return Number(gqrx[1]);
  const found = [...name.matchAll(RATE_IN_NAME)].map(([, number, unit]) => Number(number) * (factors[unit] ?? 1));
  return found.find((it) => it >= LEAST_RATE && it <= MOST_RATE) ?? 0;
}

/**
 * The form that the samples are likeliest in.
 * @param {string} name
 * @param {Uint8Array} front
 * @returns {string}
 */
export function likelyForm(name, front) {
  const named = NAME_ENDINGS.find((it) => it.ending.test(name));
  if (named) return named.form;
  const [first] = formsOf(front);
  if (first === 'f32le') return 'f32';
  if (first === 's16le') return 's16';
  const mean = front.reduce((sum, it) => sum + it, 0) / Math.max(1, front.length);
  return mean >= LEAST_MEAN && mean <= MOST_MEAN ? 'u8' : 's8';
}

/**
 * What a file is as a recording of samples, or null where neither its head nor its name says that it is one.
 * @param {string} name
 * @param {Uint8Array} head
 * @param {number} size
 * @returns {Iq | null}
 */
export function iqOf(name, head, size) {
  const wave = waveOf(head, size);
  if (wave) return wave;
  const rate = rateInName(name);
  const isNamed = /\.(iq|c[us]8|c[us]16|cf32|fc32|cfile|sigmf-data)$/i.test(name);
  if (!size || ENDINGS_OF_SYMBOLS.test(name) || !(isNamed || rate)) return null;
  return { form: likelyForm(name, head), rate, start: 0, end: size };
}

/**
 * The first samples as complex numbers, I in one list and Q in the other. What is no number is 0.
 * @param {Uint8Array} bytes
 * @param {string} form
 * @param {number} count
 * @returns {{i: Float64Array, q: Float64Array}}
 */
export function complexNumbers(bytes, form, count) {
  const { bytes: size, read } = SAMPLE_FORMS[form];
  const view = viewOf(bytes);
  const whole = Math.min(count, Math.floor(bytes.length / size));
  const number = (/** @type {number} */ place) => {
    const value = read(view, place);
    return Number.isFinite(value) ? value : 0;
  };
  return {
    i: Float64Array.from({ length: whole }, (_, at) => number(2 * at)),
    q: Float64Array.from({ length: whole }, (_, at) => number(2 * at + 1)),
  };
}
