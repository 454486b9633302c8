// Zips: those that were received, read within limits, and one that is written of all files.
import { viewOf } from './xrit.mjs';

export const MOST_FILES = 256;
export const MOST_BYTES = 64 * 1024 * 1024;
export const MOST_RATIO = 200;
const LOCAL = 0x04034b50;
const CENTRAL = 0x02014b50;
const END = 0x06054b50;
const LOCAL_BYTES = 30;
const CENTRAL_BYTES = 46;
const END_BYTES = 22;
const MOST_REMARK = 65535;
const ENCRYPTED = 1; // flags
const IS_UTF8 = 0x800;
const STORED = 0;
const DEFLATED = 8;
const KIND_MASK = 0xf000; // of a file's mode
const REGULAR = 0x8000;
const MOST_WRITTEN = 0xffffffff;
const MOST_WRITTEN_FILES = 0xffff;

/** A zip that isn't unpacked, and the key of the text that says why. */
export class BadZip extends Error {
  /** @param {import('./words.mjs').Key} key */
  constructor(key) {
    super(key);
    this.key = key;
  }
}

/**
 * @typedef {{name: string, flags: number, method: number, sum: number, packed: number, size: number, mode: number,
 *   place: number}} Entry
 */

const SUMS = Uint32Array.from({ length: 256 }, (_, byte) => {
  for (let bit = 0; bit < 8; bit += 1) byte = byte & 1 ? (byte >>> 1) ^ 0xedb88320 : byte >>> 1;
  return byte;
});

/**
 * The checksum of zips and PNG, over parts one after another.
 * @param {Uint8Array} bytes
 * @param {number} before of the parts before
 * @returns {number}
 */
export function crc32(bytes, before = 0) {
  let sum = ~before;
  for (const byte of bytes) sum = (sum >>> 8) ^ SUMS[(sum ^ byte) & 255];
  return ~sum >>> 0;
}

/** @param {Uint8Array} bytes */
export function isZip(bytes) {
  return bytes.length > 4 && viewOf(bytes).getUint32(0, true) === LOCAL;
}

/**
 * The entries of a zip's list.
 * @param {Uint8Array} bytes
 * @returns {Entry[]}
 */
function entriesOf(bytes) {
  const view = viewOf(bytes);
  const first = Math.max(0, bytes.length - END_BYTES - MOST_REMARK);
  let end = bytes.length - END_BYTES;
  while (end >= first && view.getUint32(end, true) !== END) end -= 1;
  if (end < first || end < 0) throw new BadZip('note.zip.unreadable');
  const count = view.getUint16(end + 10, true);
  if (count > MOST_FILES) throw new BadZip('note.zip.many');
  const entries = [];
  let place = view.getUint32(end + 16, true);
  for (let number = 0; number < count; number += 1) {
    if (place + CENTRAL_BYTES > end || view.getUint32(place, true) !== CENTRAL) throw new BadZip('note.zip.unreadable');
    entries.push(entryAt(bytes, view, place));
    place += CENTRAL_BYTES + [28, 30, 32].reduce((sum, it) => sum + view.getUint16(place + it, true), 0);
  }
  return entries;
}

/**
 * @param {Uint8Array} bytes
 * @param {DataView} view
 * @param {number} place
 * @returns {Entry}
 */
function entryAt(bytes, view, place) {
  const name = bytes.subarray(place + CENTRAL_BYTES, place + CENTRAL_BYTES + view.getUint16(place + 28, true));
  return {
    name: new TextDecoder().decode(name),
    flags: view.getUint16(place + 8, true),
    method: view.getUint16(place + 10, true),
    sum: view.getUint32(place + 16, true),
    packed: view.getUint32(place + 20, true),
    size: view.getUint32(place + 24, true),
    mode: view.getUint16(place + 40, true),
    place: view.getUint32(place + 42, true),
  };
}

/** @param {Entry} entry */
function isFile({ name, mode }) {
  return !name.endsWith('/') && [0, REGULAR].includes(mode & KIND_MASK);
}

/**
 * The packed bytes of an entry.
 * @param {Uint8Array} bytes
 * @param {Entry} entry
 * @returns {Uint8Array}
 */
function packedBytes(bytes, entry) {
  const view = viewOf(bytes);
  const { place } = entry;
  const isThere = place + LOCAL_BYTES <= bytes.length && view.getUint32(place, true) === LOCAL;
  if (!isThere) throw new BadZip('note.zip.unreadable');
  const start = place + LOCAL_BYTES + view.getUint16(place + 26, true) + view.getUint16(place + 28, true);
  if (start + entry.packed > bytes.length) throw new BadZip('note.zip.unreadable');
  return bytes.subarray(start, start + entry.packed);
}

/**
 * The bytes of a stream, at most so many.
 * @param {ReadableStream<Uint8Array>} stream
 * @param {number} room
 * @returns {Promise<Uint8Array>}
 */
async function taken(stream, room) {
  const reader = stream.getReader();
  const parts = [];
  let size = 0;
  for (;;) {
    const { done, value } = await reader.read();
    if (done) return joined(parts);
    size += value.length;
    if (size > room) {
      reader.cancel().catch(() => {});
      throw new BadZip('note.zip.large');
    }
    parts.push(value);
  }
}

/**
 * Parts as one.
 * @param {Uint8Array[]} parts
 * @returns {Uint8Array}
 */
export function joined(parts) {
  const all = new Uint8Array(parts.reduce((sum, part) => sum + part.length, 0));
  let place = 0;
  for (const part of parts) {
    all.set(part, place);
    place += part.length;
  }
  return all;
}

/**
 * What comes out of bytes that go through a stream of the browser's.
 * @param {Uint8Array} bytes
 * @param {GenericTransformStream} stream
 * @param {number} room
 * @returns {Promise<Uint8Array>}
 */
export function through(bytes, stream, room) {
  return taken(new Blob([/** @type {any} */ (bytes)]).stream().pipeThrough(/** @type {any} */ (stream)), room);
}

/**
 * The unpacked bytes of an entry, if they are at most so many.
 * @param {Uint8Array} bytes
 * @param {Entry} entry
 * @param {number} room
 * @returns {Promise<Uint8Array>}
 */
async function unpacked(bytes, entry, room) {
  if (entry.flags & ENCRYPTED || ![STORED, DEFLATED].includes(entry.method)) {
    throw new BadZip('note.zip.packing');
  }
  if (entry.size > room) throw new BadZip('note.zip.large');
  const packed = packedBytes(bytes, entry);
  const inside = entry.method === STORED ? packed.slice() : await inflated(packed, room);
  if (inside.length > room) throw new BadZip('note.zip.large');
  if (crc32(inside) !== entry.sum) throw new BadZip('note.zip.sum');
  return inside;
}

/** @returns {GenericTransformStream} */
const inflater = () => new (/** @type {any} */ (globalThis).DecompressionStream)('deflate-raw');

/**
 * @param {Uint8Array} packed
 * @param {number} room
 * @returns {Promise<Uint8Array>}
 */
async function inflated(packed, room) {
  try {
    return await through(packed, inflater(), room);
  } catch (fault) {
    if (fault instanceof BadZip) throw fault;
    throw new BadZip('note.zip.unreadable');
  }
}

/**
 * The files in a zip and their bytes, within the limits.
 * @param {Uint8Array} bytes
 * @returns {Promise<{name: string, bytes: Uint8Array}[]>}
 */
export async function membersOf(bytes) {
  if (bytes.length < END_BYTES) throw new BadZip('note.zip.unreadable');
  let room = Math.min(MOST_BYTES, MOST_RATIO * bytes.length);
  const found = [];
  for (const entry of entriesOf(bytes).filter(isFile)) {
    const inside = await unpacked(bytes, entry, room);
    room -= inside.length;
    found.push({ name: entry.name, bytes: inside });
  }
  if (!found.length) throw new BadZip('note.zip.empty');
  return found;
}

// ---- writing

/** A zip of files as they are, without packing, in parts that a Blob takes. */
export class ZipWriter {
  /** @param {Date} when the time of all files */
  constructor(when) {
    const day = ((when.getUTCFullYear() - 1980) << 9) | ((when.getUTCMonth() + 1) << 5) | when.getUTCDate();
    const time = (when.getUTCHours() << 11) | (when.getUTCMinutes() << 5) | (when.getUTCSeconds() >> 1);
    this.moment = (day << 16) | time;
    /** @type {Blob[]} (a browser may keep these on a disk) */
    this.parts = [];
    /** @type {Uint8Array[]} */
    this.list = [];
    this.size = 0;
  }

  /**
   * @param {string} name
   * @param {Uint8Array} bytes
   */
  add(name, bytes) {
    const encoded = new TextEncoder().encode(name);
    const place = this.size;
    const about = [IS_UTF8, STORED, this.moment, crc32(bytes), bytes.length, bytes.length, encoded.length];
    const local = fields([LOCAL, 4], [20, 2], ...sized(about), [0, 2]);
    this.parts.push(new Blob(/** @type {any} */ ([local, encoded, bytes])));
    this.size += local.length + encoded.length + bytes.length;
    /** @type {[number, number][]} no extra, no remark, one disk, and no attributes */
    const rest = [[0, 2], [0, 2], [0, 2], [0, 2], [0, 4], [place, 4]];
    this.list.push(fields([CENTRAL, 4], [20, 2], [20, 2], ...sized(about), ...rest), encoded);
    if (this.size > MOST_WRITTEN || this.list.length / 2 > MOST_WRITTEN_FILES) {
      throw new RangeError('these files are too many, or too large, for one zip');
    }
  }

  /** @returns {Blob} */
  end() {
    const size = this.list.reduce((sum, it) => sum + it.length, 0);
    const count = this.list.length / 2;
    const end = fields([END, 4], [0, 2], [0, 2], [count, 2], [count, 2], [size, 4], [this.size, 4], [0, 2]);
    return new Blob(/** @type {any} */ ([...this.parts, ...this.list, end]));
  }
}

/**
 * What both places say of a file, with their bytes.
 * @param {number[]} about
 * @returns {[number, number][]}
 */
function sized(about) {
  return about.map((it, place) => [it, [2, 2, 4, 4, 4, 4, 2][place]]);
}

/**
 * Numbers, least significant byte first, each with how many bytes it has.
 * @param {...[number, number]} numbers
 * @returns {Uint8Array}
 */
function fields(...numbers) {
  const bytes = new Uint8Array(numbers.reduce((sum, [, size]) => sum + size, 0));
  let place = 0;
  for (const [number, size] of numbers) {
    for (let byte = 0; byte < size; byte += 1) bytes[place + byte] = Math.floor(number / 256 ** byte) & 255;
    place += size;
  }
  return bytes;
}
