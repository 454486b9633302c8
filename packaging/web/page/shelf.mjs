// The files of a shelf, read by docs/FORMATS.md alone. A shelf may be read while it is written: a gate opens only after
// its item stands whole.
import { headerOf, viewOf } from './xrit.mjs';

const COMPLETE = 0x5a;
const NAME = [0x4c, 0x52, 0x53, 0x48, 0x45, 0x4c, 0x46]; // LRSHELF
const VERSIONS = [1, 2];
export const HEADER_BYTES = 19;
const CHECKSUM_BYTES = 2;
const OPEN = 0x01;
export const CLOSED = 0x00;
const FILE = 0x80;
const DISCARD = 0x81;
const DISCARD_BYTES = 11;
const FIELDS_BYTES = 11;
const ORIGIN_BYTES = 24;
const CHANNELS = 64;
export const TRANSPORT_BYTES = 10;
const MADE_BODY_BYTES = 8000; // of packets that are made of a file, where its own ones aren't known
export const MOST_FILE_BYTES = 67_108_864;
const HEAD_BYTES = 1 + 1 + FIELDS_BYTES + ORIGIN_BYTES; // of a gate and an item's front
export const MOST_CAPACITY = 2 ** 40;
const POLYNOMIAL = 0x1021;

/**
 * @typedef {{length(): number, slice(place: number, count: number): Uint8Array}} Shelved where a shelf's bytes are
 * @typedef {object} Head where an item stands
 * @property {number} gate the place of its gate
 * @property {number} extent its bytes, without the gate
 * @property {number} number of a file its own, of a discard that of the file that it discards
 * @property {boolean} isDiscard
 * @typedef {{channel: number, application: number, packets: number, frames: [number, number] | null}} Front frames: of
 *   its first and its last packet
 * @typedef {object} StoredFile
 * @property {number} number
 * @property {number} channel
 * @property {number} application
 * @property {number} packets
 * @property {[number, number] | null} frames of its first and its last packet
 * @property {number} corrected bytes in these frames
 * @property {Uint8Array} item
 * @property {Uint8Array} proper the mission file without its transport header
 * @property {import('./xrit.mjs').Header | null} header
 * @property {Uint8Array} data what comes after the header
 */

const TABLE = Uint16Array.from({ length: 256 }, (_, byte) => {
  let sum = byte << 8;
  for (let bit = 0; bit < 8; bit += 1) sum = sum & 0x8000 ? (sum << 1) ^ POLYNOMIAL : sum << 1;
  return sum;
});

/**
 * The checksum of CCSDS packets.
 * @param {Uint8Array} bytes
 * @returns {number}
 */
export function checksum(bytes) {
  let sum = 0xffff;
  for (const byte of bytes) sum = ((sum << 8) & 0xffff) ^ TABLE[(sum >> 8) ^ byte];
  return sum;
}

/** @param {Uint8Array} bytes */
export function hasItsChecksum(bytes) {
  const end = bytes.length - CHECKSUM_BYTES;
  return end >= 0 && checksum(bytes.subarray(0, end)) === viewOf(bytes).getUint16(end);
}

/**
 * Whether these bytes begin a shelf.
 * @param {Uint8Array} front
 * @returns {boolean}
 */
export function isShelf(front) {
  const isNamed = front[0] === COMPLETE && NAME.every((byte, place) => front[1 + place] === byte);
  const hasVersion = VERSIONS.includes(front[1 + NAME.length]);
  return isNamed && hasVersion && front.length >= HEADER_BYTES && hasItsChecksum(front.subarray(1, HEADER_BYTES));
}

/**
 * The items of a shelf from a gate on, up to where they break off; a shelf that still grows has more of them later.
 * @param {Shelved} shelf
 * @param {number} gate
 * @param {number} number of the next file
 * @returns {Generator<Head>}
 */
export function* headsOf(shelf, gate = HEADER_BYTES, number = 0) {
  for (;;) {
    const head = headAt(shelf, gate, number);
    if (!head) return;
    yield head;
    gate = head.gate + 1 + head.extent;
    if (!head.isDiscard) number += 1;
  }
}

/**
 * The item after a gate, or null where the gate is closed or nothing sound follows.
 * @param {Shelved} shelf
 * @param {number} gate
 * @param {number} number
 * @returns {Head | null}
 */
function headAt(shelf, gate, number) {
  const front = shelf.slice(gate, HEAD_BYTES);
  if (front[0] !== OPEN) return null;
  const head = front[1] === DISCARD ? discardHead(front, gate) : fileHead(front, gate, number);
  const isSound = head && gate + 1 + head.extent < shelf.length() && !(head.isDiscard && head.number >= number);
  return isSound ? head : null;
}

/**
 * @param {Uint8Array} front
 * @param {number} gate
 * @returns {Head | null}
 */
function discardHead(front, gate) {
  const item = front.subarray(1, 1 + DISCARD_BYTES);
  if (item.length < DISCARD_BYTES || !hasItsChecksum(item)) return null;
  return { gate, extent: DISCARD_BYTES, number: Number(viewOf(item).getBigUint64(1)), isDiscard: true };
}

/**
 * @param {Uint8Array} front
 * @param {number} gate
 * @param {number} number
 * @returns {Head | null}
 */
function fileHead(front, gate, number) {
  const isNew = front[1] === FILE;
  const before = isNew ? 2 : 1;
  if (front.length < before + FIELDS_BYTES) return null;
  const view = viewOf(front);
  const [packets, size] = [view.getUint32(before + 3), view.getUint32(before + 7)];
  const isSound = front[before] < CHANNELS && packets > 0 && size >= TRANSPORT_BYTES && size <= MOST_FILE_BYTES;
  if (!isSound) return null;
  const fields = before - 1 + FIELDS_BYTES + (isNew ? ORIGIN_BYTES : 0);
  return { gate, extent: fields + 2 * packets + size + CHECKSUM_BYTES, number, isDiscard: false };
}

/**
 * The file of an item, or null where its checksum is wrong.
 * @param {Uint8Array} item
 * @param {number} number
 * @returns {StoredFile | null}
 */
export function fileOf(item, number) {
  if (!hasItsChecksum(item)) return null;
  const isNew = item[0] === FILE;
  const view = viewOf(item);
  const at = isNew ? 1 : 0;
  const size = view.getUint32(at + 7);
  /** @param {number} place */
  const long = (place) => Number(view.getBigUint64(at + FIELDS_BYTES + place));
  const proper = item.subarray(item.length - CHECKSUM_BYTES - size + TRANSPORT_BYTES, item.length - CHECKSUM_BYTES);
  const header = headerOf(proper);
  return {
    number,
    channel: item[at],
    application: view.getUint16(at + 1),
    packets: view.getUint32(at + 3),
    frames: isNew ? [long(0), long(8)] : null,
    corrected: isNew ? long(16) : 0,
    item,
    proper,
    header,
    data: header ? proper.subarray(header.size) : proper.subarray(0, 0),
  };
}

/**
 * What stands at the front of a file's item. No checksum is compared for it.
 * @param {Shelved} shelf
 * @param {Head} head
 * @returns {Front}
 */
export function frontOf(shelf, head) {
  const front = shelf.slice(head.gate + 1, HEAD_BYTES);
  const isNew = front[0] === FILE;
  const at = isNew ? 1 : 0;
  const view = viewOf(front);
  const [first, last] = [0, 8].map((place) => (isNew ? Number(view.getBigUint64(at + FIELDS_BYTES + place)) : 0));
  const fields = { channel: front[at], application: view.getUint16(at + 1), packets: view.getUint32(at + 3) };
  return { ...fields, frames: isNew ? [first, last] : null };
}

/**
 * Where each body of a file ends, its transport header counted: nothing for one that stands on no shelf.
 * @param {StoredFile} file
 * @returns {number[]}
 */
export function endsOf({ item, packets, proper }) {
  const first = item.length - CHECKSUM_BYTES - proper.length - TRANSPORT_BYTES - 2 * packets;
  if (first < 0) return [];
  const view = viewOf(item);
  let end = 0;
  return Array.from({ length: packets }, (_, place) => (end += view.getUint16(first + 2 * place)));
}

/**
 * The bytes of a shelf that has this item alone.
 * @param {Uint8Array} item
 * @returns {Uint8Array}
 */
export function shelfOf(item) {
  const size = HEADER_BYTES + 1 + item.length + 1;
  const bytes = new Uint8Array(size);
  bytes.set([COMPLETE, ...NAME, 2]);
  const view = viewOf(bytes);
  view.setBigUint64(9, BigInt(size));
  view.setUint16(HEADER_BYTES - CHECKSUM_BYTES, checksum(bytes.subarray(1, HEADER_BYTES - CHECKSUM_BYTES)));
  bytes[HEADER_BYTES] = OPEN;
  bytes.set(item, HEADER_BYTES + 1);
  return bytes;
}

/**
 * The file of these bytes, as one of a shelf whose packets aren't known.
 * @param {Uint8Array} proper
 * @param {number} number
 * @returns {StoredFile}
 */
export function fileOfBytes(proper, number) {
  const header = headerOf(proper);
  const data = header ? proper.subarray(header.size) : proper.subarray(0, 0);
  const item = new Uint8Array(0);
  return { number, channel: 0, application: 0, packets: 0, frames: null, corrected: 0, item, proper, header, data };
}

/**
 * The item of a file in packets that are made for it.
 * @param {Uint8Array} proper
 * @returns {Uint8Array}
 */
export function itemOfBytes(proper) {
  const size = TRANSPORT_BYTES + proper.length;
  const packets = Math.ceil(size / MADE_BODY_BYTES);
  const lengths = 1 + FIELDS_BYTES + ORIGIN_BYTES;
  const start = lengths + 2 * packets;
  const item = new Uint8Array(start + size + CHECKSUM_BYTES);
  const view = viewOf(item);
  item[0] = FILE;
  view.setUint32(4, packets);
  view.setUint32(8, size);
  for (let place = 0; place < packets; place += 1) {
    view.setUint16(lengths + 2 * place, Math.min(MADE_BODY_BYTES, size - place * MADE_BODY_BYTES));
  }
  view.setBigUint64(start + 2, BigInt(8 * proper.length));
  item.set(proper, start + TRANSPORT_BYTES);
  view.setUint16(start + size, checksum(item.subarray(0, start + size)));
  return item;
}
