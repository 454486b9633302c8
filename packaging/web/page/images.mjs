// The pixels of images on a shelf: those of the proved receiver's `export`, or of a JPEG, GIF or PNG by the browser;
// and the segments of a picture put together.
import { MOST_PIXELS } from './segments.mjs';
import { lumaOf } from './colours.mjs';
import { itemOfBytes, shelfOf } from './shelf.mjs';
import { pictureKind } from './texts.mjs';
import { isEncrypted, structureOf, viewOf } from './xrit.mjs';
import { widthOf } from './png.mjs';

const MOST_READ_PIXELS = 64 * 1024 * 1024; // of a picture that the browser reads
const HEAD_ROOM = 64; // of a PGM's head
const LINE_FEED = 10;
const PNG_SIZE = 16; // where a PNG and a GIF have their size
const GIF_SIZE = 6;

/**
 * @typedef {import('./png.mjs').Picture} Picture
 * @typedef {import('./shelf.mjs').StoredFile} StoredFile
 * @typedef {import('./segments.mjs').Segment} Segment
 * @typedef {import('./station.mjs').Station} Station
 */

/**
 * The picture of a PGM.
 * @param {Uint8Array} pgm
 * @returns {Picture}
 */
export function pictureOfPgm(pgm) {
  /** @type {string[]} */
  const lines = [];
  let place = 0;
  while (lines.length < 3) {
    const end = pgm.indexOf(LINE_FEED, place);
    lines.push(new TextDecoder().decode(pgm.subarray(place, end)));
    place = end + 1;
  }
  const [columns, rows] = lines[1].split(' ').map(Number);
  return { bits: 32 - Math.clz32(Number(lines[2])), columns, lines: rows, pixels: pgm.subarray(place) };
}

/**
 * How many columns and lines a JPEG, GIF or PNG says that it has, or null.
 * @param {Uint8Array} bytes
 * @param {string} ending
 * @returns {{columns: number, lines: number} | null}
 */
export function sizeOf(bytes, ending) {
  const view = viewOf(bytes);
  if (ending === '.png' && bytes.length >= PNG_SIZE + 8) {
    return { columns: view.getUint32(PNG_SIZE), lines: view.getUint32(PNG_SIZE + 4) };
  }
  if (ending === '.gif' && bytes.length >= GIF_SIZE + 4) {
    return { columns: view.getUint16(GIF_SIZE, true), lines: view.getUint16(GIF_SIZE + 2, true) };
  }
  return ending === '.jpg' ? jpegSize(bytes, view) : null;
}

/**
 * @param {Uint8Array} bytes
 * @param {DataView} view
 * @returns {{columns: number, lines: number} | null}
 */
function jpegSize(bytes, view) {
  for (let place = 2; place + 9 <= bytes.length; ) {
    const [mark, kind] = [bytes[place], bytes[place + 1]];
    if (mark !== 0xff) return null;
    const isFrame = kind >= 0xc0 && kind <= 0xcf && ![0xc4, 0xc8, 0xcc].includes(kind);
    if (isFrame) return { lines: view.getUint16(place + 5), columns: view.getUint16(place + 7) };
    place += 2 + (kind === 0xff ? -1 : view.getUint16(place + 2));
  }
  return null;
}

/**
 * Whether the browser is asked for a picture: it is one, and says of no more than so many pixels.
 * @param {Uint8Array} bytes
 * @param {string} ending
 * @returns {boolean}
 */
export function isReadable(bytes, ending) {
  const size = sizeOf(bytes, ending);
  return size !== null && size.columns * size.lines > 0 && size.columns * size.lines <= MOST_READ_PIXELS;
}

/**
 * The picture of a JPEG, GIF or PNG in grey of 8 bits, or null.
 * @param {Uint8Array} bytes
 * @param {import('./texts.mjs').PictureKind} kind
 * @returns {Promise<Picture | null>}
 */
async function readPicture(bytes, kind) {
  if (!isReadable(bytes, kind.ending)) return null;
  try {
    const image = await createImageBitmap(new Blob([/** @type {BlobPart} */ (bytes)], { type: kind.type }));
    const canvas = new (/** @type {any} */ (globalThis).OffscreenCanvas)(image.width, image.height);
    const context = canvas.getContext('2d');
    context.drawImage(image, 0, 0);
    const { data } = context.getImageData(0, 0, image.width, image.height);
    const pixels = new Uint8Array(image.width * image.height);
    for (let at = 0; at < pixels.length; at += 1) pixels[at] = lumaOf(data[4 * at], data[4 * at + 1], data[4 * at + 2]);
    return { bits: 8, columns: image.width, lines: image.height, pixels };
  } catch {
    return null;
  }
}

/**
 * The picture of an image file, or null where it has none that can be had here.
 * @param {Station} station
 * @param {StoredFile} file
 * @returns {Promise<Picture | null>}
 */
export async function pictureOf(station, file) {
  const { header } = file;
  const structure = header && structureOf(header);
  if (!header || !structure || isEncrypted(header)) return null;
  const kind = pictureKind(file.data);
  if (kind) return readPicture(file.data, kind);
  const pixels = structure.columns * structure.lines;
  if (pixels > MOST_PIXELS || isWithoutBounds(file)) return null;
  const shelf = shelfOf(file.item.length ? file.item : itemOfBytes(file.proper));
  const out = pixels * (structure.bits > 8 ? 2 : 1) + HEAD_ROOM;
  const answer = station.run(['export', '0'], { shelf, rooms: { out, shelf: shelf.length } });
  return answer.status === 0 ? pictureOfPgm(answer.out) : null;
}

/**
 * Whether an image is coded packet by packet, and its packets aren't known, as it didn't come from a shelf.
 * @param {StoredFile} file
 * @returns {boolean}
 */
export function isWithoutBounds({ item, header, data }) {
  return !item.length && header !== null && structureOf(header)?.compression === 1 && !pictureKind(data);
}

/**
 * The pictures of segments put together: places that none covers are 0.
 * @param {{segment: Segment, picture: Picture}[]} parts
 * @returns {Picture | null}
 */
export function joinedPicture(parts) {
  const sorted = [...parts].sort((a, b) => a.segment.number - b.segment.number);
  const { segment, picture: one } = sorted[0];
  const columns = segment.columns || one.columns;
  const lines = segment.lines || one.lines * segment.total;
  if (!(columns * lines > 0 && columns * lines <= MOST_PIXELS)) return null;
  const whole = { bits: one.bits, columns, lines, pixels: new Uint8Array(columns * lines * widthOf(one)) };
  for (const part of sorted) {
    const top = part.segment.top ?? part.segment.number * one.lines;
    const { picture } = part;
    const fits = part.segment.left + picture.columns <= columns && top + picture.lines <= lines;
    if (picture.bits === one.bits && fits) lay(whole, picture, part.segment.left, top);
  }
  return whole;
}

/**
 * Lays a picture onto a whole one.
 * @param {Picture} whole
 * @param {Picture} picture
 * @param {number} left
 * @param {number} top
 */
function lay(whole, picture, left, top) {
  const width = widthOf(whole);
  const row = picture.columns * width;
  for (let line = 0; line < picture.lines; line += 1) {
    const to = ((top + line) * whole.columns + left) * width;
    whole.pixels.set(picture.pixels.subarray(line * row, (line + 1) * row), to);
  }
}

/**
 * A picture of which no side is longer than so many pixels, by leaving some out, and how many are left out.
 * @param {Picture} picture
 * @param {number} most
 * @returns {{step: number, pixels: Uint8Array}}
 */
export function thinned(picture, most) {
  const step = Math.max(1, Math.ceil(Math.max(picture.columns, picture.lines) / most));
  if (step === 1) return { step, pixels: picture.pixels };
  const [columns, lines] = [Math.ceil(picture.columns / step), Math.ceil(picture.lines / step)];
  const width = widthOf(picture);
  const pixels = new Uint8Array(columns * lines * width);
  for (let at = 0; at < columns * lines; at += 1) {
    const from = (Math.floor(at / columns) * step * picture.columns + (at % columns) * step) * width;
    for (let byte = 0; byte < width; byte += 1) pixels[at * width + byte] = picture.pixels[from + byte];
  }
  return { step, pixels };
}
