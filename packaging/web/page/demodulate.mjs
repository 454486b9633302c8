// What a Worker with `lr_radio` does: it makes soft symbols of a recording of complex samples, and tells what the
// signal looks like as it goes.
import { FileInput } from './devices.mjs';
import { DOWNLINKS, SAMPLE_FORMS, complexNumbers } from './iq.mjs';
import { modulated } from './modulate.mjs';
import { SPECTRUM_SAMPLES, spectrumOf } from './spectrum.mjs';

const LOOK_MILLISECONDS = 150; // between two looks at the signal
const MOST_POINTS = 1024; // of a constellation
const KEPT_BYTES = 1 << 20; // of symbols that make a part

/**
 * @typedef {import('./station.mjs').Station} Station
 * @typedef {import('./station.mjs').Signal} Signal
 * @typedef {import('./iq.mjs').Iq & {downlink: string}} How
 * @typedef {{kind: 'demodulate', file: Blob, how: How} | {kind: 'modulate', symbols: Uint8Array}} RadioTask
 * @typedef {{points: Int8Array, spectrum: Float32Array, signal: Signal | null}} Sight points: of the constellation, as
 *   pairs
 * @typedef {{kind: 'seen', read: number, size: number} & Sight} Seen
 * @typedef {{kind: 'demodulated', status: number, fault: string, symbols: Blob}} Demodulated
 * @typedef {Seen | Demodulated | {kind: 'modulated', samples: Blob}} RadioTold
 */

/** What is seen of the signal, now and then. */
class Look {
  /** @type {Signal | null} */
  signal = null;
  last = -Infinity; // when
  samples = new Uint8Array(0); // the first ones of the block
  across = new Int8Array(0);

  /** @param {string} form */
  constructor(form) {
    this.form = form;
    this.bytes = SPECTRUM_SAMPLES * SAMPLE_FORMS[form].bytes;
  }

  isDue() {
    return performance.now() - this.last >= LOOK_MILLISECONDS;
  }

  /**
   * Keeps samples that were read. (Whether they are looked at is known only when their symbols come.)
   * @param {Uint8Array} bytes
   */
  keep(bytes) {
    this.samples = bytes.slice(0, this.bytes);
  }

  /**
   * @param {Int8Array} symbols
   * @returns {Sight}
   */
  seen(symbols) {
    this.last = performance.now();
    const count = Math.min(MOST_POINTS, symbols.length, this.across.length);
    const points = Int8Array.from({ length: 2 * count }, (_, at) => (at % 2 ? this.across : symbols)[at >> 1]);
    const spectrum = spectrumOf(complexNumbers(this.samples, this.form, SPECTRUM_SAMPLES));
    return { points, spectrum, signal: this.signal };
  }
}

/** Symbols as a file of parts, which a browser keeps on a disk where they are many. */
class Kept {
  /** @type {Blob[]} */
  parts = [];
  /** @type {Uint8Array[]} */
  pieces = [];
  size = 0; // of the pieces

  /** @param {Uint8Array} bytes */
  add(bytes) {
    this.pieces.push(bytes);
    this.size += bytes.length;
    if (this.size >= KEPT_BYTES) this.file();
  }

  file() {
    this.parts.push(new Blob(/** @type {any} */ (this.pieces)));
    Object.assign(this, { pieces: [], size: 0 });
    return new Blob(this.parts);
  }
}

/** @param {Uint8Array} bytes */
const signed = (bytes) => new Int8Array(bytes.buffer, bytes.byteOffset, bytes.length);

/**
 * Demodulates a recording.
 * @param {Station} station
 * @param {Blob} file
 * @param {How} how
 * @param {(message: RadioTold) => void} tell
 */
export function demodulate(station, file, how, tell) {
  const { number, bytes: unit } = SAMPLE_FORMS[how.form];
  const { symbols, rollOff } = DOWNLINKS[how.downlink];
  const look = new Look(how.form);
  const kept = new Kept();
  let [read, size] = [0, 0];
  const whole = file.slice(how.start, how.end);
  const source = new FileInput(whole, (bytes) => bytes, unit, (...far) => ([read, size] = far));
  const take = (/** @type {Uint8Array} */ into) => {
    const count = source.take(into);
    if (count) look.keep(into.subarray(0, count));
    return count;
  };
  const put = (/** @type {number} */ output, /** @type {Uint8Array} */ bytes) => {
    if (output === 2) look.across = signed(bytes);
    else {
      kept.add(bytes);
      if (look.isDue()) tell({ kind: 'seen', read, size, ...look.seen(signed(bytes)) });
    }
  };
  const told = (/** @type {Signal} */ signal) => (look.signal = signal);
  const status = station.radio({ rate: how.rate, symbols, rollOff, number }, { input: { take }, put, told });
  const fault = station.fault ? String(station.fault) : '';
  tell({ kind: 'demodulated', status, fault, symbols: kept.file() });
}

/**
 * Draws the signal of symbols.
 * @param {Uint8Array} symbols
 * @param {(message: RadioTold) => void} tell
 */
export function modulate(symbols, tell) {
  const parts = [...modulated(symbols)];
  tell({ kind: 'modulated', samples: new Blob(/** @type {any} */ (parts)) });
}
