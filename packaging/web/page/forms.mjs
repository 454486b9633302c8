// What a recording may be made of: its forms, which are turned into a signed byte a symbol, and what bytes look like.
import { viewOf } from './xrit.mjs';

export const FORM_BYTES = 65_536; // by which the form is told
export const FRAME_SYMBOLS = 16_384;
const FRAME_BYTES = 892; // without marker and code
const CADU_BYTES = 1024;
const MARKER = [0x1a, 0xcf, 0xfc, 0x1d];
const LEVEL = 64; // of a clean symbol
export const COUNTER_MODULUS = 1 << 24; // of the frames of a channel
export const CODES = ['nrz-l', 'nrz-m'].flatMap((line) => ['inverted', 'plain'].map((g2) => ({ line, g2 })));

/**
 * @typedef {import('./devices.mjs').Turn} Turn
 * @typedef {{line: string, g2: string}} Code
 * @typedef {object} Form
 * @property {number} unit the bytes that are turned together
 * @property {number} gives the symbols of a unit, or of frames its bytes
 * @property {'symbols' | 'frames'} input
 * @property {(front: Uint8Array) => Turn} turnFor the turn, by the recording's first bytes
 * @typedef {{form: string, code: Code | null, mend?: number}} Found mend: how many fillers an image may have
 */

const [ZERO, ONE] = [256 - LEVEL, LEVEL]; // the bytes of a bit 0 and of a bit 1: -64 and 64

/** @param {Uint8Array} bytes */
const bitsOf = (bytes) => {
  const symbols = new Uint8Array(8 * bytes.length);
  for (let at = 0; at < symbols.length; at += 1) symbols[at] = (bytes[at >> 3] >> (7 - (at & 7))) & 1 ? ONE : ZERO;
  return symbols;
};

/**
 * A turn of numbers of several bytes: the mean height becomes that of a clean symbol.
 * @param {number} width
 * @param {(view: DataView, place: number) => number} read
 * @returns {(front: Uint8Array) => Turn}
 */
function scaling(width, read) {
  /** @param {Uint8Array} bytes */
  const numbers = (bytes) => {
    const view = viewOf(bytes);
    return Float64Array.from({ length: Math.floor(bytes.length / width) }, (_, place) => {
      const number = read(view, width * place);
      return Number.isFinite(number) ? number : 0;
    });
  };
  return (front) => {
    const heights = numbers(front);
    const mean = heights.reduce((sum, it) => sum + Math.abs(it) / heights.length, 0);
    const factor = mean > 0 ? LEVEL / mean : 0;
    return (bytes) => Uint8Array.from(numbers(bytes), (it) => Math.max(-127, Math.min(127, Math.round(it * factor))));
  };
}

/** @type {Record<string, Form>} */
export const FORMS = {
  signed: { unit: 1, gives: 1, input: 'symbols', turnFor: () => (bytes) => bytes },
  unsigned: {
    unit: 1, gives: 1, input: 'symbols', turnFor: () => (bytes) => bytes.map((it) => it ^ 0x80),
  },
  bits: {
    unit: 1, gives: 1, input: 'symbols', turnFor: () => (bytes) => bytes.map((it) => (it ? ONE : ZERO)),
  },
  packed: { unit: 1, gives: 8, input: 'symbols', turnFor: () => bitsOf },
  s16le: {
    unit: 2, gives: 1, input: 'symbols',
    turnFor: scaling(2, (view, place) => view.getInt16(place, true)),
  },
  s16be: {
    unit: 2, gives: 1, input: 'symbols',
    turnFor: scaling(2, (view, place) => view.getInt16(place)),
  },
  f32le: {
    unit: 4, gives: 1, input: 'symbols',
    turnFor: scaling(4, (view, place) => view.getFloat32(place, true)),
  },
  f32be: {
    unit: 4, gives: 1, input: 'symbols',
    turnFor: scaling(4, (view, place) => view.getFloat32(place)),
  },
  frames: { unit: FRAME_BYTES, gives: FRAME_BYTES, input: 'frames', turnFor: () => (bytes) => bytes },
  cadu: { unit: CADU_BYTES, gives: FRAME_BYTES, input: 'frames', turnFor: () => framesOfCadus },
};

/** @param {Uint8Array} bytes */
function framesOfCadus(bytes) {
  const count = Math.floor(bytes.length / CADU_BYTES);
  const frames = new Uint8Array(FRAME_BYTES * count);
  for (let number = 0; number < count; number += 1) {
    const start = CADU_BYTES * number + MARKER.length;
    frames.set(bytes.subarray(start, start + FRAME_BYTES), FRAME_BYTES * number);
  }
  return frames;
}

// ---- what bytes look like

/** @param {Uint8Array} bytes */
const isMarker = (bytes) => MARKER.every((byte, place) => bytes[place] === byte);

/**
 * Whether each 892 bytes begin as a transfer frame does: version 1, one spacecraft, and counters that go on.
 * @param {Uint8Array} bytes
 * @returns {boolean}
 */
export function areFrames(bytes) {
  const view = viewOf(bytes);
  /** @type {Map<number, number>} */
  const counters = new Map();
  let [on, off, count] = [0, 0, 0];
  for (let at = 0; at < bytes.length - FRAME_BYTES; at += FRAME_BYTES) {
    const head = view.getUint16(at);
    const counter = view.getUint32(at + 2) >>> 8;
    if (head >> 6 !== view.getUint16(0) >> 6 || head >> 14 !== 1) return false;
    const before = counters.get(head & 0x3f);
    if (before !== undefined) counter === (before + 1) % COUNTER_MODULUS ? (on += 1) : (off += 1);
    counters.set(head & 0x3f, counter);
    count += 1;
  }
  return count > 1 && on >= off;
}

/**
 * Each so many-th byte from a place on.
 * @param {Uint8Array} bytes
 * @param {number} from
 * @param {number} step
 */
const everyByte = (bytes, from, step) => bytes.filter((_, place) => place % step === from);

/**
 * How far two lists of bytes differ in distribution, 0 to 100.
 * @param {Uint8Array} one
 * @param {Uint8Array} other
 * @returns {number}
 */
function apart(one, other) {
  const counts = new Int32Array(256);
  for (const it of one) counts[it] += 1;
  for (const it of other) counts[it] -= 1;
  return (100 * counts.reduce((sum, it) => sum + Math.abs(it), 0)) / Math.max(1, one.length + other.length);
}

/**
 * Whether nearly all are floats from 1/65,536 to 65,536, of this byte order.
 * @param {Uint8Array} bytes
 * @param {number} at where the byte with the exponent is
 * @returns {boolean}
 */
function areFloats(bytes, at) {
  const high = everyByte(bytes, at, 4);
  const found = high.reduce((sum, it) => sum + Number((it & 0x7f) >= 55 && (it & 0x7f) <= 71), 0);
  return 4 * found > 0.95 * bytes.length && apart(high, everyByte(bytes, 3 - at, 4)) > 25;
}

/** @param {Uint8Array} bytes */
function areShorts(bytes) {
  const quarters = [0, 1, 2, 3].map((it) => everyByte(bytes, it, 4));
  const differ = apart(quarters[0], quarters[1]) > 15;
  return differ && apart(quarters[0], quarters[2]) < 15 && apart(quarters[1], quarters[3]) < 15;
}

/**
 * The forms to try, the likeliest first: what the first bytes tell, and else bytes.
 * @param {Uint8Array} front
 * @returns {string[]}
 */
export function formsOf(front) {
  const bytes = front.subarray(0, FORM_BYTES);
  if (isMarker(bytes) && isMarker(bytes.subarray(CADU_BYTES))) return ['cadu'];
  if (areFrames(bytes)) return ['frames'];
  if (bytes.every((it) => it < 2) && bytes.includes(1)) return ['bits'];
  const floats = [...(areFloats(bytes, 3) ? ['f32le'] : []), ...(areFloats(bytes, 0) ? ['f32be'] : [])];
  return [...floats, ...(areShorts(bytes) ? ['s16le', 's16be'] : []), 'signed', 'unsigned', 'packed'];
}

/**
 * Whether bytes are numbers of several bytes each, by which a radio's samples may stand too.
 * @param {Uint8Array} bytes
 * @returns {boolean}
 */
export function areNumbers(bytes) {
  return areFloats(bytes, 3) || areFloats(bytes, 0) || areShorts(bytes);
}

/**
 * Whether more than a twentieth of the bytes stand at 0 and 255, where unsigned bytes end, and hardly any beside these.
 * @param {Uint8Array} bytes
 * @returns {boolean}
 */
export function piles(bytes) {
  const counts = new Uint32Array(256);
  for (const it of bytes) counts[it] += 1;
  const ends = counts[0] + counts[255];
  return ends > bytes.length / 20 && ends > 4 * (counts[1] + counts[254]);
}

/**
 * The words for a recording after a command's name.
 * @param {Found} found
 * @returns {string[]}
 */
export function optionsOf({ form, code }) {
  return code ? ['--line', code.line, '--g2', code.g2] : ['--input', FORMS[form].input];
}
