// Why nothing was found in a file. The tool's `gomtasil which` has the same reasons in the same order, and
// tools/tests/reasons.json has cases for both.
import { FORM_BYTES, FRAME_SYMBOLS, areNumbers } from './forms.mjs';
import { viewOf } from './xrit.mjs';

const SHORT_BYTES = 40_000;
const LEAST_WEAK_FRAMES = 8; // (a marker that is found in noise is kept for four)
const LEAST_WEAK_SHARE = 0.1; // of the frames that the symbols may hold
const [LEAST_MIDDLE, MOST_MIDDLE, MOST_SPREAD] = [120, 135, 56]; // of unsigned bytes of a radio
const WAVE_CHANNELS = 22; // where a WAV has their number
/** @type {{key: ReasonKey, front: number[]}[]} */
const FRONTS = [
  { key: 'jpeg', front: [0xff, 0xd8, 0xff] },
  { key: 'png', front: [0x89, 0x50, 0x4e, 0x47, 0x0d, 0x0a, 0x1a, 0x0a] },
  { key: 'gif', front: [0x47, 0x49, 0x46, 0x38] },
  { key: 'pdf', front: [0x25, 0x50, 0x44, 0x46, 0x2d] },
  { key: 'zip', front: [0x50, 0x4b, 0x03, 0x04] },
];

/**
 * @typedef {'empty' | 'jpeg' | 'png' | 'gif' | 'pdf' | 'zip' | 'radio' | 'weak' | 'short' | 'noise'} ReasonKey
 * @typedef {{form: string, code: import('./forms.mjs').Code, frames: number, symbols: number}} Heard
 * @typedef {{key: ReasonKey, isSure: boolean, heard: Heard | null}} Reason isSure: by the first bytes alone, so nothing
 *   has to be tried
 */

/** @param {Uint8Array} bytes @param {number} from */
const textAt = (bytes, from) =>
  String.fromCharCode(...bytes.subarray(from, from + 4));

/**
 * Whether it is a WAV of two channels, as radios write I and Q.
 * @param {Uint8Array} front
 */
function isTwoChannels(front) {
  const isWave = ['RIFF', 'RF64'].includes(textAt(front, 0)) && textAt(front, 8) === 'WAVE';
  return isWave && front.length >= WAVE_CHANNELS + 2 && viewOf(front).getUint16(WAVE_CHANNELS, true) === 2;
}

/**
 * Whether these are unsigned bytes around the middle, as an RTL-SDR gives them.
 * @param {Uint8Array} front
 */
function areSamples(front) {
  const mean = front.reduce((sum, it) => sum + it, 0) / front.length;
  const spread = front.reduce((sum, it) => sum + Math.abs(it - mean), 0) / front.length;
  return mean >= LEAST_MIDDLE && mean <= MOST_MIDDLE && spread > 1 && spread < MOST_SPREAD;
}

/**
 * The try in which markers were found again and again, though no frame was restored.
 * @param {Heard[]} tries
 * @returns {Heard | undefined}
 */
function weakOf(tries) {
  const isHeard = (/** @type {Heard} */ it) =>
    it.frames >= Math.max(LEAST_WEAK_FRAMES, (LEAST_WEAK_SHARE * it.symbols) / FRAME_SYMBOLS);
  return [...tries].sort((one, other) => other.frames - one.frames).find(isHeard);
}

/**
 * Why a file that has this front is read in no way.
 * @param {Uint8Array} bytes
 * @param {number} size
 * @param {Heard[]} tries
 * @returns {Reason}
 */
export function reasonOf(bytes, size, tries) {
  const front = bytes.subarray(0, FORM_BYTES);
  const sure = (/** @type {ReasonKey} */ key) => ({ key, isSure: true, heard: null });
  const signed = FRONTS.find((it) => it.front.every((byte, place) => front[place] === byte));
  if (!size) return sure('empty');
  if (signed) return sure(signed.key);
  if (isTwoChannels(front)) return sure('radio');
  const heard = weakOf(tries);
  if (heard) return { key: 'weak', isSure: false, heard };
  const isShort = size < SHORT_BYTES;
  const areTried = tries.some((it) => /^[sf]\d/.test(it.form)) && areNumbers(front);
  const key = isShort ? 'short' : areTried || areSamples(front) ? 'radio' : 'noise';
  return { key, isSure: false, heard: null };
}
