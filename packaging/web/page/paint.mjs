// Part of a picture as it is shown: enlarged or made smaller, in colours, with its lost parts hatched.
import { tableOf, tinting } from './colours.mjs';

const MOST_SAMPLES = 3; // of a side, of which the mean is shown where a picture is made smaller
const [HATCH_STEP, HATCH_WIDTH] = [12, 4]; // pixels of the screen
const HATCH = 0xff2a60ff; // orange

/**
 * A picture that is looked at: grey values of so many bits, or colours.
 * @typedef {object} Seen
 * @property {number} columns of the picture itself
 * @property {number} lines
 * @property {number} step each so many-th column and line of it is here
 * @property {number} bits
 * @property {Uint8Array} [pixels] one byte a pixel up to 8 bits, else two, most significant first
 * @property {Uint32Array} [colours] as a canvas has them
 * @property {Area[]} lost
 * @typedef {{left: number, top: number, columns: number, lines: number}} Area
 * @typedef {{x: number, y: number, scale: number}} Look the place of the picture in the screen's corner, and the pixels
 *   of the screen that one of the picture has
 * @typedef {{width: number, height: number, words: Uint32Array}} Screen
 */

/**
 * The columns or lines that make each pixel of the screen: `count` of them for each, or -1 outside.
 * @param {number} size of the screen
 * @param {number} from
 * @param {number} scale
 * @param {number} most of the picture
 * @param {number} step
 * @param {number} count
 * @returns {Int32Array}
 */
function samplesOf(size, from, scale, most, step, count) {
  return Int32Array.from({ length: size * count }, (_, at) => {
    const place = from + (Math.floor(at / count) + ((at % count) + 0.5) / count) / scale;
    return place < 0 || place >= most ? -1 : Math.floor(place / step);
  });
}

/**
 * How the mean of some samples is shown.
 * @param {Seen} seen
 * @param {import('./colours.mjs').Tint} tint
 * @returns {(rows: Int32Array, columns: Int32Array) => number}
 */
function meanOf(seen, tint) {
  const wide = Math.ceil(seen.columns / seen.step);
  return seen.colours ? meanColour(seen.colours, wide, tint) : meanValue(seen, wide, tint);
}

/**
 * @param {Seen} seen
 * @param {number} wide
 * @param {import('./colours.mjs').Tint} tint
 */
function meanValue({ pixels = new Uint8Array(0), bits }, wide, tint) {
  const most = 2 ** bits - 1;
  const table = tableOf(tint, most);
  const isNarrow = bits <= 8;
  return (/** @type {Int32Array} */ rows, /** @type {Int32Array} */ columns) => {
    let [sum, count] = [0, 0];
    for (const row of rows) {
      for (const column of columns) {
        if (row < 0 || column < 0) continue;
        const at = row * wide + column;
        sum += isNarrow ? pixels[at] : pixels[2 * at] * 256 + pixels[2 * at + 1];
        count += 1;
      }
    }
    return count ? table[Math.min(most, Math.round(sum / count))] : 0;
  };
}

/**
 * @param {Uint32Array} colours
 * @param {number} wide
 * @param {import('./colours.mjs').Tint} tint
 */
function meanColour(colours, wide, tint) {
  const tinted = tinting(tint);
  return (/** @type {Int32Array} */ rows, /** @type {Int32Array} */ columns) => {
    let [red, green, blue, count] = [0, 0, 0, 0];
    for (const row of rows) {
      for (const column of columns) {
        if (row < 0 || column < 0) continue;
        const it = colours[row * wide + column];
        red += it & 255;
        green += (it >> 8) & 255;
        blue += (it >> 16) & 255;
        count += 1;
      }
    }
    if (!count) return 0;
    return tinted((Math.round(blue / count) << 16) | (Math.round(green / count) << 8) | Math.round(red / count));
  };
}

/**
 * Paints what is seen of a picture onto the columns of a screen from `from` to `to`.
 * @param {Screen} screen
 * @param {Seen} seen
 * @param {Look} look
 * @param {import('./colours.mjs').Tint} tint
 * @param {number} from
 * @param {number} to
 */
export function paint(screen, seen, look, tint, from = 0, to = screen.width) {
  const count = Math.max(1, Math.min(MOST_SAMPLES, Math.ceil(1 / (look.scale * seen.step))));
  const columns = samplesOf(screen.width, look.x, look.scale, seen.columns, seen.step, count);
  const rows = samplesOf(screen.height, look.y, look.scale, seen.lines, seen.step, count);
  const parts = Array.from({ length: screen.width }, (_, at) => columns.subarray(at * count, (at + 1) * count));
  const mean = meanOf(seen, tint);
  for (let line = 0; line < screen.height; line += 1) {
    const row = rows.subarray(line * count, (line + 1) * count);
    const start = line * screen.width;
    for (let column = from; column < to; column += 1) screen.words[start + column] = mean(row, parts[column]);
  }
}

/**
 * Hatches the parts of a picture that are lost.
 * @param {Screen} screen
 * @param {Seen} seen
 * @param {Look} look
 * @param {number} from
 * @param {number} to
 */
export function hatch(screen, seen, look, from = 0, to = screen.width) {
  for (const area of seen.lost) {
    const left = Math.max(from, Math.floor((area.left - look.x) * look.scale));
    const right = Math.min(to, Math.ceil((area.left + area.columns - look.x) * look.scale));
    const top = Math.max(0, Math.floor((area.top - look.y) * look.scale));
    const bottom = Math.min(screen.height, Math.ceil((area.top + area.lines - look.y) * look.scale));
    for (let line = top; line < bottom; line += 1) {
      for (let column = left; column < right; column += 1) {
        if ((line + column) % HATCH_STEP < HATCH_WIDTH) screen.words[line * screen.width + column] = HATCH;
      }
    }
  }
}

/**
 * The look at which a whole picture fits a screen, in its middle.
 * @param {{width: number, height: number}} screen
 * @param {{columns: number, lines: number}} picture
 * @returns {Look}
 */
export function fitting({ width, height }, { columns, lines }) {
  const scale = Math.min(width / columns, height / lines);
  return centred({ width, height }, { columns, lines }, { x: 0, y: 0, scale });
}

/**
 * The same look where the picture doesn't leave the screen: a side that fits is in the middle.
 * @param {{width: number, height: number}} screen
 * @param {{columns: number, lines: number}} picture
 * @param {Look} look
 * @returns {Look}
 */
export function centred({ width, height }, { columns, lines }, { x, y, scale }) {
  /** @param {number} place @param {number} whole @param {number} seen */
  const within = (place, whole, seen) =>
    seen >= whole ? (whole - seen) / 2 : Math.max(0, Math.min(whole - seen, place));
  return { x: within(x, columns, width / scale), y: within(y, lines, height / scale), scale };
}

/**
 * The look after a change of the scale at which a place of the screen keeps what it shows.
 * @param {Look} look
 * @param {number} scale
 * @param {number} column
 * @param {number} line
 * @returns {Look}
 */
export function zoomed(look, scale, column, line) {
  return { x: look.x + column / look.scale - column / scale, y: look.y + line / look.scale - line / scale, scale };
}
