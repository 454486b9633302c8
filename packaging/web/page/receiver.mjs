// What a Worker with `lr_live` does: it receives a recording, or tells how well it is received, piece by piece. Each
// write to the shelf goes to the keeper too, which so holds the same bytes at any moment: if this Worker is ended the
// shelf is as a power cut would leave it.
import { FileInput, MemoryShelf, bytesOf } from './devices.mjs';
import { FORMS, FRAME_SYMBOLS, optionsOf } from './forms.mjs';
import { TRIED_BYTES } from './search.mjs';
import { Curve, lineReader } from './quality.mjs';
import { MOST_CAPACITY } from './shelf.mjs';
import { windowOfLine } from './windows.mjs';

export const PASSES = ['--passes', '4']; // lost frames are decoded again
const TOLD_MILLISECONDS = 100; // between two words on how far it is

/**
 * @typedef {import('./station.mjs').Station} Station
 * @typedef {import('./forms.mjs').Found} Found
 * @typedef {(message: import('./messages.mjs').Told) => void} Tell
 * @typedef {{kind: 'write', place: number, bytes: Uint8Array} | {kind: 'cut', length: number}
 *   | {kind: 'shelved'}} Change
 */

/** A shelf whose changes somebody hears. */
class ToldShelf extends MemoryShelf {
  /** @param {(change: Change) => void} told */
  constructor(told) {
    super();
    this.told = told;
  }

  /** @param {number} place @param {Uint8Array} bytes */
  write(place, bytes) {
    super.write(place, bytes);
    this.told({ kind: 'write', place, bytes: bytes.slice() });
  }

  /** @param {number} length */
  cut(length) {
    super.cut(length);
    this.told({ kind: 'cut', length });
  }
}

/**
 * The recording as an input, which says how far it is.
 * @param {Blob} file
 * @param {string} form
 * @param {Tell} tell
 * @returns {FileInput}
 */
function inputOf(file, form, tell) {
  const { turnFor, unit } = FORMS[form];
  const turn = turnFor(bytesOf(file.slice(0, TRIED_BYTES)));
  let last = 0;
  return new FileInput(file, turn, unit, (read, size) => {
    const now = performance.now();
    if (now - last < TOLD_MILLISECONDS) return;
    last = now;
    tell({ kind: 'progress', read, size });
  });
}

/** Where a reception goes: a shelf whose changes somebody hears, and the lines that are put. */
export class Reception {
  last = ''; // line that was put
  err = '';

  /** @param {(change: Change) => void} keep */
  constructor(keep) {
    this.shelf = new ToldShelf(keep);
    const lines = lineReader((line) => {
      this.last = line;
      if (line.startsWith('shelved ')) keep({ kind: 'shelved' });
    });
    /** @param {number} output @param {Uint8Array} bytes */
    this.put = (output, bytes) => {
      if (output === 1) lines(bytes);
      else this.err += new TextDecoder().decode(bytes);
    };
  }
}

/**
 * Receives a recording onto a new shelf.
 * @param {Station} station
 * @param {Blob} file
 * @param {Found} found
 * @param {(change: Change) => void} keep
 * @param {Tell} tell
 */
export function receive(station, file, found, keep, tell) {
  const reception = new Reception(keep);
  const { shelf, put } = reception;
  station.live(['init', String(MOST_CAPACITY)], { input: { take: () => 0 }, shelf, put });
  const input = inputOf(file, found.form, tell);
  const mending = found.mend ? ['--mend', String(found.mend)] : [];
  const status = station.live(['receive', ...optionsOf(found), ...PASSES, ...mending], { input, shelf, put });
  const { last, err } = reception;
  const fault = station.fault ? String(station.fault) : '';
  const memory = station.memory.buffer.byteLength;
  tell({ kind: 'received', status, last, err: err.trim(), fault, memory });
}

/**
 * Tells how well a recording is received.
 * @param {Station} station
 * @param {Blob} file
 * @param {Found} found
 * @param {Tell} tell
 */
export function judge(station, file, found, tell) {
  const { unit, gives } = FORMS[found.form];
  const isCounted = !found.code;
  const curve = new Curve(isCounted ? file.size / unit : ((file.size / unit) * gives) / FRAME_SYMBOLS);
  const { buckets, total, frames } = curve;
  /** @type {import('./windows.mjs').Window[]} */
  let windows = [];
  const lines = lineReader((line) => {
    curve.take(line);
    const window = windowOfLine(line);
    if (window) windows.push(window);
  });
  const told = () => {
    tell({ kind: 'windows', windows });
    windows = [];
    tell({ kind: 'quality', buckets, total, frames, isCounted });
  };
  const input = inputOf(file, found.form, told);
  const shelf = new MemoryShelf();
  const put = (/** @type {number} */ output, /** @type {Uint8Array} */ bytes) => output === 1 && lines(bytes);
  const command = isCounted ? ['frames'] : ['decode', ...optionsOf(found), ...PASSES];
  station.live(command, { input, shelf, put });
  tell({ kind: 'windows', windows });
  tell({ kind: 'quality', buckets, total, frames, isCounted, isWhole: true });
}
