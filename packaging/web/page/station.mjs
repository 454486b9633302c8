// The receiver's module and what it needs of its host: blocks of memory, and devices. Nothing here knows what a symbol,
// a frame or a file of a shelf is.
import { Heap } from './heap.mjs';

export const NO_MEMORY = 256; // answers that are no status
const NO_ROOM = 258;
const OUTPUT_FAILED = 5;
const DISK_FAILED = 4;
const ERR_ROOM = 4096;
const FIRST_ROOM = 1 << 20;
const FIRST_CALLS = 4096;
const MOST_ROOM = 2 ** 33;
const COUNTS_BYTES = 24;

/**
 * @typedef {import('./devices.mjs').Input} Input
 * @typedef {object} Shelf
 * @property {() => number} length
 * @property {(place: number, into: Uint8Array) => number} read
 * @property {(place: number, bytes: Uint8Array) => void} write
 * @property {(length: number) => void} cut
 * @property {() => void} sync
 * @typedef {(output: number, bytes: Uint8Array) => void} Put
 * @typedef {{input: Input, shelf: Shelf, put: Put}} Devices
 * @typedef {{level: number, clipped: number, isLocked: boolean, ratio: number, carrier: number, clock: number}} Signal
 *   decibels, a part, whether a carrier is held, and of that Es/N0 in decibels, Hz, and parts of a million
 * @typedef {{input: Input, put: Put, told: (signal: Signal) => void}} RadioDevices
 * @typedef {{rate: number, symbols: number, rollOff: number, number: number}} RadioSettings number: of the form
 * @typedef {{out?: number, shelf?: number, calls?: number}} Rooms
 * @typedef {{status: number, out: Uint8Array, err: string, shelf: Uint8Array}} Answer
 */

/** One instance of a module with `lr_run`, `lr_live` or `lr_radio`. A call that traps spends it. */
export class Station {
  /** @param {WebAssembly.Module} module */
  constructor(module) {
    this.isSpent = false;
    /** @type {unknown} what a device threw within the last call */
    this.fault = null;
    /** @type {Devices | RadioDevices | null} */
    this.devices = null;
    const instance = new WebAssembly.Instance(module, { env: this.environment() });
    /** @type {Record<string, any>} */
    this.exports = instance.exports;
    /** @type {WebAssembly.Memory} */
    this.memory = this.exports.memory;
    this.heap = new Heap(this.memory, Number(this.exports.__heap_base.value));
  }

  /**
   * A window on the module's memory. It is good until the memory grows.
   * @param {bigint} place
   * @param {bigint} count
   */
  window(place, count) {
    return new Uint8Array(this.memory.buffer, Number(place), Number(count));
  }

  /** What the module imports. */
  environment() {
    return { ...this.blocks(), ...this.hostFunctions() };
  }

  blocks() {
    /** @param {bigint} into @param {number} place */
    const answer = (into, place) =>
      new BigUint64Array(this.memory.buffer, Number(into), 2).set([place ? 1n : 0n, BigInt(place)]);
    return {
      /** @param {bigint} into @param {bigint} size */
      rattle_alloc: (into, size) => answer(into, this.heap.take(Number(size))),
      /** @param {bigint} into @param {bigint} place @param {bigint} kept @param {bigint} size */
      rattle_realloc: (into, place, kept, size) =>
        answer(into, this.heap.resize(Number(place), Number(kept), Number(size))),
      /** @param {bigint} place */
      rattle_dealloc: (place) => this.heap.give(Number(place)),
    };
  }

  /** The seven functions of `lr_live`, and that of `lr_radio`. Whatever a device throws is an answer of -1. */
  hostFunctions() {
    /** @param {(devices: Devices & RadioDevices) => number | void} what */
    const asked = (what) => {
      try {
        return this.devices ? BigInt(what(/** @type {any} */ (this.devices)) ?? 0) : -1n;
      } catch (fault) {
        this.fault = fault;
        return -1n;
      }
    };
    return {
      /** @param {bigint} place @param {bigint} count */
      lr_host_take: (place, count) => asked((it) => it.input.take(this.window(place, count))),
      /** @param {number} output @param {bigint} place @param {bigint} count */
      lr_host_put: (output, place, count) =>
        asked((it) => {
          it.put(output, this.window(place, count).slice());
          return Number(count);
        }),
      lr_host_length: () => asked((it) => it.shelf.length()),
      /** @param {bigint} from @param {bigint} place @param {bigint} count */
      lr_host_read: (from, place, count) => asked((it) => it.shelf.read(Number(from), this.window(place, count))),
      /** @param {bigint} to @param {bigint} place @param {bigint} count */
      lr_host_write: (to, place, count) => asked((it) => it.shelf.write(Number(to), this.window(place, count))),
      /** @param {bigint} length */
      lr_host_cut: (length) => asked((it) => it.shelf.cut(Number(length))),
      lr_host_sync: () => asked((it) => it.shelf.sync()),
      /** @param {number[]} words */
      lr_host_told: (...[level, clipped, isLocked, ratio, carrier, clock]) => {
        asked((it) => void it.told({ level, clipped, isLocked: isLocked !== 0, ratio, carrier, clock }));
      },
    };
  }

  /**
   * A block for the host's own bytes.
   * @param {number} count
   * @returns {number}
   */
  room(count) {
    const place = this.heap.take(Math.max(count, 1));
    if (place === 0) throw new RangeError(`no memory for ${count} bytes`);
    return place;
  }

  /**
   * Calls an export. A trap leaves the module's memory in between two states, so no further call is made then.
   * @param {string} name
   * @param {(number | bigint)[]} words
   * @returns {number}
   */
  call(name, words) {
    if (this.isSpent) throw new Error('an earlier call of the receiver ended in a trap');
    this.isSpent = true;
    const answer = this.exports[name](...words);
    this.isSpent = false;
    return answer;
  }

  /**
   * Calls with blocks that are given back afterwards.
   * @template T
   * @param {(take: (count: number, bytes?: Uint8Array) => number) => T} work
   * @returns {T}
   */
  withRooms(work) {
    /** @type {number[]} */
    const taken = [];
    try {
      return work((count, bytes) => {
        const place = this.room(count);
        taken.push(place);
        if (bytes) new Uint8Array(this.memory.buffer, place, bytes.length).set(bytes);
        return place;
      });
    } finally {
      if (!this.isSpent) taken.forEach((place) => this.heap.give(place));
    }
  }

  /**
   * One command over bytes, with rooms of these sizes.
   * @param {Uint8Array} text the words in lines
   * @param {Uint8Array} input
   * @param {Uint8Array} shelf
   * @param {Required<Rooms>} rooms
   * @returns {Answer}
   */
  runOnce(text, input, shelf, rooms) {
    return this.withRooms((take) => {
      const given = [text, input, shelf].flatMap((it) => [take(it.length, it), it.length]);
      const [out, err, kept] = [rooms.out, ERR_ROOM, rooms.shelf].map((it) => take(it));
      const counts = take(COUNTS_BYTES);
      const words = [...given, rooms.calls, out, rooms.out, err, ERR_ROOM, kept, rooms.shelf, counts];
      const status = this.call('lr_run', words.map(BigInt));
      const isRun = status < NO_MEMORY;
      const sizes = isRun ? Array.from(new BigUint64Array(this.memory.buffer, counts, 3), Number) : [0, 0, 0];
      /** @param {number} place @param {number} size */
      const copy = (place, size) => new Uint8Array(this.memory.buffer, place, size).slice();
      return {
        status,
        out: copy(out, sizes[0]),
        err: new TextDecoder().decode(copy(err, sizes[1])),
        shelf: copy(kept, sizes[2]),
      };
    });
  }

  /**
   * One command over bytes alone. Where a room fills up it is run again from the same bytes, with twice of each.
   * @param {string[]} words
   * @param {{input?: Uint8Array, shelf?: Uint8Array, rooms?: Rooms}} [over]
   * @returns {Answer}
   */
  run(words, over = {}) {
    const none = new Uint8Array(0);
    const { input = none, shelf = none, rooms = {} } = over;
    const sizes = { out: FIRST_ROOM, shelf: Math.max(shelf.length, FIRST_ROOM), calls: FIRST_CALLS, ...rooms };
    const text = textOf(words);
    for (;;) {
      const answer = this.runOnce(text, input, shelf, sizes);
      const isFull = [OUTPUT_FAILED, DISK_FAILED, NO_ROOM].includes(answer.status);
      if (!isFull || sizes.out >= MOST_ROOM) return answer;
      sizes.out *= 2;
      sizes.shelf *= 2;
      sizes.calls *= 2;
    }
  }

  /**
   * One command over devices. Its status.
   * @param {string[]} words
   * @param {Devices} devices
   * @returns {number}
   */
  live(words, devices) {
    const text = textOf(words);
    this.devices = devices;
    this.fault = null;
    try {
      return this.withRooms((take) => this.call('lr_live', [take(text.length, text), text.length].map(BigInt)));
    } finally {
      this.devices = null;
    }
  }

  /**
   * Demodulates a recording of complex samples over devices. Its status.
   * @param {RadioSettings} settings
   * @param {RadioDevices} devices
   * @returns {number}
   */
  radio({ rate, symbols, rollOff, number }, devices) {
    this.devices = devices;
    this.fault = null;
    try {
      return this.call('lr_radio', [rate, symbols, rollOff, number]);
    } finally {
      this.devices = null;
    }
  }
}

/**
 * The words of a command, in lines.
 * @param {string[]} words
 * @returns {Uint8Array}
 */
export function textOf(words) {
  if (words.some((it) => it.includes('\n'))) throw new Error('a word has a line end');
  return new TextEncoder().encode(words.join('\n'));
}
