// The records of a mission file's header, as docs/FORMATS.md has them.

export const KINDS = { primary: 0, structure: 1, annotation: 4, stamp: 5, text: 6, key: 7, segment: 128, lossless: 131 };
export const TYPES = { image: 0, gts: 1, text: 2 };
const PRIMARY_BYTES = 16;
const RECORD_BYTES = 3; // before what a record holds
/** @type {Record<number, number>} */
const FIXED_BYTES = { 1: 9, 2: 51, 5: 10 };
const LOSSLESS_BYTES = 7;
const RUN = '\\d{1,7}(?:-\\d{1,7})?'; // the place of a packet that stands in, or the first and the last of several
const MENDED = new RegExp(`^gomtasil mended (${RUN}(?: ${RUN}){0,1022}) of (\\d{1,7})$`);
const MOST_FILLERS = 1023;
const STAMP_FORM = 0x40;
const STAMP_BEGIN = Date.UTC(1958, 0, 1);
const DAY_MILLISECONDS = 86_400_000;

/**
 * @typedef {{bits: number, columns: number, lines: number, compression: number}} Structure
 * @typedef {object} Header
 * @property {number} fileType
 * @property {number} size of the header, in bytes
 * @property {{kind: number, inside: Uint8Array}[]} records those after the first
 */

/**
 * Numbers of some bytes, most significant byte first.
 * @param {Uint8Array} bytes
 * @returns {DataView}
 */
export function viewOf(bytes) {
  return new DataView(bytes.buffer, bytes.byteOffset, bytes.length);
}

/**
 * The header of a mission file, or null where it has a fault.
 * @param {Uint8Array} file
 * @returns {Header | null}
 */
export function headerOf(file) {
  if (file.length < PRIMARY_BYTES) return null;
  const view = viewOf(file);
  const size = view.getUint32(4);
  const isPrimary = file[0] === KINDS.primary && view.getUint16(1) === PRIMARY_BYTES;
  if (!isPrimary || size < PRIMARY_BYTES || size > file.length) return null;
  const records = [];
  for (let place = PRIMARY_BYTES; place < size; ) {
    if (place + RECORD_BYTES > size) return null;
    const [kind, length] = [file[place], view.getUint16(place + 1)];
    if (length < RECORD_BYTES || place + length > size || (FIXED_BYTES[kind] ?? length) !== length) return null;
    records.push({ kind, inside: file.subarray(place + RECORD_BYTES, place + length) });
    place += length;
  }
  return { fileType: file[3], size, records };
}

/**
 * What the first record of a kind holds, or null.
 * @param {Header} header
 * @param {number} kind
 * @returns {Uint8Array | null}
 */
export function firstOf(header, kind) {
  return header.records.find((it) => it.kind === kind)?.inside ?? null;
}

/**
 * @param {Header} header
 * @returns {Structure | null}
 */
export function structureOf(header) {
  const found = firstOf(header, KINDS.structure);
  if (!found) return null;
  const view = viewOf(found);
  return { bits: found[0], columns: view.getUint16(1), lines: view.getUint16(3), compression: found[5] };
}

/** @param {Header} header */
export function isEncrypted(header) {
  return header.records.some((it) => it.kind === KINDS.key && it.inside.some((byte) => byte !== 0));
}

/**
 * How many lines a packet has whose lines are coded without loss; 0 where no record says it.
 * @param {Header} header
 * @returns {number}
 */
export function linesPerPacket(header) {
  const isLossless = (/** @type {Uint8Array} */ inside) => inside.length + RECORD_BYTES === LOSSLESS_BYTES;
  const found = header.records.find((it) => it.kind === KINDS.lossless && isLossless(it.inside));
  return found ? found.inside[3] : 0;
}

/**
 * The time of a file, or null.
 * @param {Header} header
 * @returns {Date | null}
 */
export function stampOf(header) {
  const found = firstOf(header, KINDS.stamp);
  if (!found) return null;
  const view = viewOf(found);
  const [days, milliseconds] = [view.getUint16(1), view.getUint32(3)];
  if (found[0] !== STAMP_FORM || milliseconds >= DAY_MILLISECONDS) return null;
  return new Date(STAMP_BEGIN + days * DAY_MILLISECONDS + milliseconds);
}

/**
 * How many packets of a file stand in for some that were lost, and all of them; and the places of the former as runs,
 * each with the place after its last one.
 * @typedef {{fillers: number, packets: number}} Mended
 * @typedef {Mended & {runs: [number, number][]}} Marked
 */

/**
 * What a text says that names the places of the packets which stand in, as `gomtasil mended 2 8-9 of 13`; or null.
 * @param {string} text
 * @returns {Marked | null}
 */
function mendedText(text) {
  const found = MENDED.exec(text);
  if (!found) return null;
  const packets = Number(found[2]);
  /** @type {[number, number][]} */
  const runs = found[1].split(' ').map((run) => {
    const [first, last] = run.split('-').map(Number);
    return [first, (last ?? first) + 1];
  });
  const before = (/** @type {number} */ at) => (at ? runs[at - 1][1] : 0);
  const isInOrder = runs.every(([first, end], at) => before(at) <= first && first < end && end <= packets);
  const fillers = runs.reduce((sum, [first, end]) => sum + end - first, 0);
  return isInOrder && fillers <= MOST_FILLERS ? { fillers, packets, runs } : null;
}

/**
 * What the last record of that text says, or null where no packet was missing.
 * @param {Header} header
 * @returns {Marked | null}
 */
export function mendedOf(header) {
  const texts = header.records.filter((it) => it.kind === KINDS.text).map((it) => it.inside);
  const found = texts.map((it) => mendedText(new TextDecoder('latin1').decode(it))).filter(Boolean);
  return found.at(-1) ?? null;
}
