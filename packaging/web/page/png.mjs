// Pictures as PNG, grey, with 8 or 16 bits a pixel. Where pixels are scaled, sBIT says how many bits they had.
import { crc32, joined, through } from './zip.mjs';

const SIGNATURE = [0x89, 0x50, 0x4e, 0x47, 0x0d, 0x0a, 0x1a, 0x0a];
const GREY = 0;
const ROUNDING = 1e-6;

/**
 * @typedef {object} Picture rows of bytes: one byte a pixel where a pixel has at most 8 bits, else two, most
 *   significant first
 * @property {number} bits
 * @property {number} columns
 * @property {number} lines
 * @property {Uint8Array} pixels
 */

/** @param {Picture} picture */
export function widthOf(picture) {
  return picture.bits <= 8 ? 1 : 2;
}

/**
 * The pixels with 8 or 16 bits: 0 stays, and the greatest value becomes the greatest one.
 * @param {Picture} picture
 * @returns {Uint8Array}
 */
export function scaled({ bits, pixels }) {
  if (bits === 8 || bits === 16) return pixels;
  const most = 2 ** bits - 1;
  if (bits < 8) return pixels.map((it) => Math.floor((Math.min(it, most) * 255) / most));
  const bytes = new Uint8Array(pixels.length);
  for (let at = 0; at < pixels.length; at += 2) {
    const value = Math.floor(((pixels[at] * 256 + pixels[at + 1]) * 65535) / most + ROUNDING);
    bytes[at] = value >> 8;
    bytes[at + 1] = value & 255;
  }
  return bytes;
}

/**
 * A part of a PNG.
 * @param {string} name
 * @param {Uint8Array} inside
 * @returns {Uint8Array}
 */
function chunk(name, inside) {
  const bytes = new Uint8Array(12 + inside.length);
  const view = new DataView(bytes.buffer);
  view.setUint32(0, inside.length);
  bytes.set([...name].map((it) => it.charCodeAt(0)), 4);
  bytes.set(inside, 8);
  view.setUint32(8 + inside.length, crc32(bytes.subarray(4, 8 + inside.length)));
  return bytes;
}

/**
 * The rows with the byte in front of each that says that it isn't filtered.
 * @param {Uint8Array} pixels
 * @param {number} row the bytes of a row
 * @param {number} lines
 * @returns {Uint8Array}
 */
function rowsOf(pixels, row, lines) {
  const rows = new Uint8Array((row + 1) * lines);
  for (let line = 0; line < lines; line += 1) {
    rows.set(pixels.subarray(line * row, (line + 1) * row), line * (row + 1) + 1);
  }
  return rows;
}

/** @returns {GenericTransformStream} */
const deflater = () => new (/** @type {any} */ (globalThis).CompressionStream)('deflate');

/**
 * The bytes of a PNG.
 * @param {Picture} picture
 * @returns {Promise<Uint8Array>}
 */
export async function pngOf(picture) {
  const width = widthOf(picture);
  const head = new Uint8Array(13);
  const view = new DataView(head.buffer);
  view.setUint32(0, picture.columns);
  view.setUint32(4, picture.lines);
  head.set([8 * width, GREY, 0, 0, 0], 8);
  const rows = rowsOf(scaled(picture), picture.columns * width, picture.lines);
  const packed = await through(rows, deflater(), Infinity);
  const isScaled = picture.bits !== 8 && picture.bits !== 16;
  const note = isScaled ? [chunk('sBIT', Uint8Array.of(picture.bits))] : [];
  const end = [chunk('IDAT', packed), chunk('IEND', new Uint8Array(0))];
  return joined([Uint8Array.from(SIGNATURE), chunk('IHDR', head), ...note, ...end]);
}
