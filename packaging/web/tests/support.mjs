// What the tests share: files, items and shelves by their own rules, and a stand-in for the receiver's module.
import { checksum } from '../page/shelf.mjs';

/** @param {number} number @param {number} size */
export function big(number, size) {
  return Array.from({ length: size }, (_, place) => Math.floor(number / 256 ** (size - 1 - place)) & 255);
}

/** @param {string} text */
export const bytesOf = (text) => [...new TextEncoder().encode(text)];

/** @param {number} kind @param {number[]} inside */
export const record = (kind, inside) => [kind, ...big(inside.length + 3, 2), ...inside];

/** A mission file without its transport header. */
export function missionFile(type, records, data) {
  const size = 16 + records.reduce((sum, it) => sum + it.length, 0);
  const primary = record(0, [type, ...big(size, 4), ...big(8 * data.length, 8)]);
  return Uint8Array.from([...primary, ...records.flat(), ...data]);
}

/** Pixels of so many bits, one after another. */
export function packedBits(values, bits) {
  const text = values.map((it) => it.toString(2).padStart(bits, '0')).join('');
  const whole = text.padEnd(Math.ceil(text.length / 8) * 8, '0');
  return (whole.match(/.{8}/g) ?? []).map((it) => parseInt(it, 2));
}

/** An item of a shelf, of one body. */
export function itemOf(number, proper, channel = 1, application = 100) {
  return packedItem(proper, [(10 + proper.length) % 65536], { number, channel, application });
}

/** An item whose bodies have these sizes. */
export function packedItem(proper, sizes, { number = 0, channel = 1, application = 100, frames = [0, 0] } = {}) {
  const content = [...big(number, 2), ...big(8 * proper.length, 8), ...proper];
  const counts = [...big(sizes.length, 4), ...big(content.length, 4)];
  const origin = [...frames.flatMap((it) => big(it, 8)), ...big(0, 8)];
  const lengths = sizes.flatMap((it) => big(it, 2));
  const before = Uint8Array.from([0x80, channel, ...big(application, 2), ...counts, ...origin, ...lengths, ...content]);
  return Uint8Array.from([...before, ...big(checksum(before), 2)]);
}

/** A shelf of items. */
export function shelfBytes(items, capacity = 10 ** 9) {
  const named = [...bytesOf('LRSHELF'), 2, ...big(capacity, 8)];
  const header = [0x5a, ...named, ...big(checksum(Uint8Array.from(named)), 2)];
  return Uint8Array.from([...header, ...items.flatMap((it) => [1, ...it]), 0]);
}

/** The records of a file of segments.json. */
function recordsOf(file) {
  const { name, bits, columns, lines, noaa, numbered, planned } = file;
  const found = [record(1, [bits, ...big(columns, 2), ...big(lines, 2), 0]), record(4, bytesOf(name))];
  if (noaa) {
    const [image, number, left, top, count, wide, high] = noaa;
    found.push(record(128, [image, number, left, top, count, wide, high].flatMap((it) => big(it, 2))));
  }
  if (numbered) found.push(record(128, [numbered[0], numbered[1], ...big(numbered[2], 2)]));
  if (planned) {
    const [craft, channel, number, first, last, form] = planned;
    found.push(record(128, [...big(craft, 2), channel, ...[number, first, last].flatMap((it) => big(it, 2)), form]));
  }
  if (file.record) found.push(record(128, [...Buffer.from(file.record, 'hex')]));
  if (file.stamp) found.push(record(5, [0x40, ...big(25000, 2), ...big(file.stamp, 4)]));
  if (file.encrypted) found.push(record(7, [1]));
  if (file.text) found.push(record(6, bytesOf(file.text)));
  return found;
}

/** The pixels of a file or a picture of segments.json. */
export function valuesOf(it) {
  return it.pixels ?? new Array(it.columns * it.lines).fill(it.fill);
}

/** The item of a file of segments.json. */
export function imageItem(number, file) {
  const proper = missionFile(0, recordsOf(file), packedBits(valuesOf(file), file.bits));
  return itemOf(number, proper, file.channel ?? 1, file.application ?? 100);
}

/** In place of the module: `export 0` of images that aren't coded. */
export class PlainStation {
  run(words, { shelf }) {
    const failed = { status: 8, out: new Uint8Array(0), err: 'station: cannot export' };
    if (words.join(' ') !== 'export 0') return failed;
    const view = new DataView(shelf.buffer, shelf.byteOffset);
    const size = view.getUint32(20 + 8);
    const proper = shelf.subarray(shelf.length - 1 - 2 - size + 10, shelf.length - 3);
    const start = new DataView(proper.buffer, proper.byteOffset).getUint32(4);
    const [bits, columns, lines] = [proper[19], proper[20] * 256 + proper[21], proper[22] * 256 + proper[23]];
    const text = [...proper.subarray(start)].map((it) => it.toString(2).padStart(8, '0')).join('');
    if (text.length < columns * lines * bits) return failed;
    const value = (at) => parseInt(text.slice(at * bits, (at + 1) * bits), 2);
    const values = Array.from({ length: columns * lines }, (_, at) => value(at));
    const pixels = values.flatMap((it) => (bits > 8 ? big(it, 2) : [it]));
    const head = bytesOf(`P5\n${columns} ${lines}\n${2 ** bits - 1}\n`);
    return { status: 0, out: Uint8Array.from([...head, ...pixels]), err: '' };
  }
}
