// From the numbers of a frame to its bits: the four line codes, the convolutional code of CCSDS 131.0-B and the nearest
// path (Viterbi). The proved receiver has its own; this one decodes a frame a second time, to show it.
import { FRAME_SYMBOLS } from './forms.mjs';

const MARKER_BITS = Array.from({ length: 32 }, (_, at) => (0x1acffc1d >>> (31 - at)) & 1);
const STATES = 64; // the last six levels, the newest the most significant
const MEMORY = 6;
const BLOCK_BITS = 8160;
const PATH_BITS = BLOCK_BITS + MEMORY; // up to where the next marker tells the state
const MARKER_SYMBOLS = 64;
const UNTOLD = 12; // symbols at a frame's front that depend on the frame before
const LEAST = -127;

/** @typedef {import('./forms.mjs').Code} Code */

/**
 * The levels that are sent for bits.
 * @param {Code} code
 * @param {number} before the level before them
 * @param {ArrayLike<number>} bits
 * @returns {number[]}
 */
function levelsOf({ line }, before, bits) {
  let level = before;
  return Array.from(bits, (bit) => (level = line === 'nrz-m' ? level ^ bit : bit));
}

/**
 * The two symbols for a level and the six before it, as a number from 0 to 3.
 * @param {number} levels the newest the most significant of seven bits
 * @param {Code} code
 * @returns {number}
 */
function pairOf(levels, { g2 }) {
  const [b0, b1, b2, b3, , b5, b6] = [6, 5, 4, 3, 2, 1, 0].map((at) => (levels >> at) & 1);
  const second = b0 ^ b2 ^ b3 ^ b5 ^ b6 ^ (g2 === 'inverted' ? 1 : 0);
  return 2 * (b0 ^ b1 ^ b2 ^ b3 ^ b6) + second;
}

/**
 * The symbols for levels, one byte of 0 or 1 each.
 * @param {Code} code
 * @param {number[]} levels
 * @returns {Uint8Array}
 */
function symbolsOf(code, levels) {
  const symbols = new Uint8Array(2 * levels.length);
  let state = 0;
  levels.forEach((level, at) => {
    const seven = (level << MEMORY) | state;
    const pair = pairOf(seven, code);
    symbols[2 * at] = pair >> 1;
    symbols[2 * at + 1] = pair & 1;
    state = seven >> 1;
  });
  return symbols;
}

/**
 * The symbols of a whole frame. The first twelve are those after levels of 0.
 * @param {Code} code
 * @param {Uint8Array} bits of its block
 * @returns {Uint8Array}
 */
export function frameSymbols(code, bits) {
  return symbolsOf(code, levelsOf(code, 0, [...MARKER_BITS, ...bits]));
}

/**
 * How many of the numbers that the marker tells agree with it.
 * @param {Code} code
 * @param {Int8Array} values of the frame, already turned by its polarity
 * @returns {number}
 */
export function hitsOf(code, values) {
  const marker = symbolsOf(code, levelsOf(code, 0, MARKER_BITS));
  let hits = 0;
  for (let at = UNTOLD; at < MARKER_SYMBOLS; at += 1) hits += Number(marker[at] ? values[at] > 0 : values[at] < 0);
  return hits;
}

/**
 * How many numbers of a frame have another sign than they should, of those that don't depend on the frame before.
 * @param {Uint8Array} symbols what they should be
 * @param {Int8Array} values
 * @returns {{wrong: number, compared: number}}
 */
export function wrongSigns(symbols, values) {
  let wrong = 0;
  for (let at = UNTOLD; at < FRAME_SYMBOLS; at += 1) wrong += Number(symbols[at] ? values[at] <= 0 : values[at] >= 0);
  return { wrong, compared: FRAME_SYMBOLS - UNTOLD };
}

/**
 * The numbers of a frame after its marker, as the nearest path is looked for.
 * @param {Int8Array} values
 */
function windowOf(values) {
  return Int32Array.from({ length: 2 * PATH_BITS }, (_, at) => Math.max(LEAST, values[MARKER_SYMBOLS + at] ?? 0));
}

/**
 * The bits of a frame's block by the nearest path: from the state after the marker to that after the first bits of the
 * next one. Of paths with one cost that counts whose levels are less, read from the last one.
 * @param {Code} code
 * @param {Int8Array} values of the frame and the twelve symbols after it, already turned by its polarity
 * @returns {Uint8Array}
 */
export function nearestBits(code, values) {
  const window = windowOf(values);
  const pairs = Uint8Array.from({ length: 2 * STATES }, (_, seven) => pairOf(seven, code));
  const dropped = new Uint8Array(PATH_BITS * STATES);
  let costs = new Float64Array(STATES).fill(Infinity);
  costs[stateOf(levelsOf(code, 0, MARKER_BITS))] = 0;
  for (let at = 0; at < PATH_BITS; at += 1) {
    const [one, other] = [window[2 * at], window[2 * at + 1]];
    const gains = [-one - other, -one + other, one - other, one + other];
    const next = new Float64Array(STATES).fill(Infinity);
    for (let state = 0; state < STATES; state += 1) {
      for (let last = 0; last < 2; last += 1) {
        const seven = (state << 1) | last;
        if (!isAllowed(code, at, seven)) continue;
        const cost = costs[seven & (STATES - 1)] - gains[pairs[seven]];
        if (cost >= next[state]) continue;
        next[state] = cost;
        dropped[at * STATES + state] = last;
      }
    }
    costs = next;
  }
  return bitsOfPath(code, dropped, costs.indexOf(Math.min(...costs)));
}

/** @param {number[]} levels */
const stateOf = (levels) => levels.slice(-MEMORY).reduce((state, level) => (level << (MEMORY - 1)) | (state >> 1), 0);

/**
 * Whether a step is one that the bits of the next marker allow.
 * @param {Code} code
 * @param {number} at
 * @param {number} seven the level and the six before it
 */
function isAllowed({ line }, at, seven) {
  if (at < BLOCK_BITS) return true;
  const [level, before] = [seven >> MEMORY, (seven >> (MEMORY - 1)) & 1];
  return (line === 'nrz-m' ? level ^ before : level) === MARKER_BITS[at - BLOCK_BITS];
}

/**
 * The bits of the path that ends in a state.
 * @param {Code} code
 * @param {Uint8Array} dropped
 * @param {number} end
 * @returns {Uint8Array}
 */
function bitsOfPath(code, dropped, end) {
  const levels = new Uint8Array(PATH_BITS);
  let state = end;
  for (let at = PATH_BITS - 1; at >= 0; at -= 1) {
    levels[at] = state >> (MEMORY - 1);
    state = ((state << 1) & (STATES - 1)) | dropped[at * STATES + state];
  }
  const before = levelsOf(code, 0, MARKER_BITS).at(-1) ?? 0;
  const isMarks = code.line === 'nrz-m';
  return levels.slice(0, BLOCK_BITS).map((level, at) => (isMarks ? level ^ (at ? levels[at - 1] : before) : level));
}

/**
 * Bits as bytes.
 * @param {Uint8Array} bits
 * @returns {Uint8Array}
 */
export function packed(bits) {
  const bytes = new Uint8Array(bits.length / 8);
  bits.forEach((bit, at) => {
    bytes[at >> 3] |= bit << (7 - (at & 7));
  });
  return bytes;
}

/**
 * Bytes as bits.
 * @param {Uint8Array} bytes
 * @returns {Uint8Array}
 */
export function unpackedBits(bytes) {
  return Uint8Array.from({ length: 8 * bytes.length }, (_, at) => (bytes[at >> 3] >> (7 - (at & 7))) & 1);
}
