// A recording made worse: noise on its numbers, and frames that are lost in noise. The same seed gives the same.
import { FRAME_SYMBOLS } from './forms.mjs';

const NOISY_LEVEL = 32; // of a clean symbol beside noise, so that few of the others are cut off
const MOST = 127;
const DRAWN = 1 << 16; // numbers of the noise, which are drawn once

/**
 * Numbers from 0 to before 1 that look drawn: a counter whose bits are mixed.
 * @param {number} seed
 * @returns {() => number}
 */
function drawing(seed) {
  let state = seed >>> 0;
  return () => {
    state = (state + 0x9e3779b9) >>> 0;
    let mixed = Math.imul(state ^ (state >>> 16), 0x21f0aaad);
    mixed = Math.imul(mixed ^ (mixed >>> 15), 0x735a2d97);
    return ((mixed ^ (mixed >>> 15)) >>> 0) / 2 ** 32;
  };
}

/**
 * A normal deviation, by two drawn numbers (Box and Muller).
 * @param {() => number} draw
 */
const deviation = (draw) => Math.sqrt(-2 * Math.log(1 - draw())) * Math.cos(2 * Math.PI * draw());

/**
 * So many of the numbers from 0 to before another one, each once.
 * @param {number} count
 * @param {number} all
 * @param {() => number} draw
 * @returns {Set<number>}
 */
function someOf(count, all, draw) {
  /** @type {Set<number>} */
  const found = new Set();
  while (found.size < Math.min(count, all)) found.add(Math.floor(draw() * all));
  return found;
}

/**
 * Signed bytes with noise, whose deviation is so many percent of the signal, and with lost frames.
 * @param {Uint8Array} symbols
 * @param {{noise: number, lost: number, seed: number}} worse
 * @returns {Uint8Array}
 */
export function worsened(symbols, { noise, lost, seed }) {
  if (!noise && !lost) return symbols;
  const draw = drawing(seed);
  const table = Float32Array.from({ length: DRAWN }, () => deviation(draw));
  const loud = (/** @type {number} */ it) => Math.max(-MOST, Math.min(MOST, Math.round(it)));
  const bytes = new Int8Array(symbols);
  const factor = (NOISY_LEVEL * noise) / 100;
  if (noise) for (let at = 0; at < bytes.length; at += 1) {
    bytes[at] = loud(Math.sign(bytes[at]) * NOISY_LEVEL + factor * table[Math.floor(draw() * DRAWN)]);
  }
  for (const frame of someOf(lost, Math.floor(bytes.length / FRAME_SYMBOLS), draw)) {
    for (let at = frame * FRAME_SYMBOLS; at < (frame + 1) * FRAME_SYMBOLS; at += 1) {
      bytes[at] = loud(NOISY_LEVEL * table[Math.floor(draw() * DRAWN)]);
    }
  }
  return new Uint8Array(bytes.buffer);
}
