// Colours for grey levels: the tables of the tool gomtasil, with light and contrast.

/** @typedef {[number, [number, number, number]]} Corner a level, and its red, green and blue */

/** @type {Record<string, Corner[]>} corners between which a table goes on evenly */
const CORNERS = {
  grey: [[0, [0, 0, 0]], [255, [255, 255, 255]]],
  ir: [
    [0, [0, 0, 0]], [160, [200, 200, 200]], [161, [0, 170, 220]], [185, [0, 40, 160]], [186, [0, 180, 60]],
    [205, [180, 220, 0]], [206, [255, 220, 0]], [225, [220, 40, 0]], [226, [120, 0, 60]], [255, [255, 255, 255]],
  ],
  wv: [
    [0, [90, 45, 0]], [90, [190, 120, 40]], [140, [235, 235, 235]], [200, [70, 130, 220]], [255, [20, 20, 120]],
  ],
  heat: [[0, [255, 240, 200]], [80, [230, 110, 30]], [160, [90, 30, 90]], [255, [10, 10, 60]]],
};
export const TABLES = Object.keys(CORNERS);
export const PLAIN = { table: 'grey', light: 0, contrast: 0 };
const CONTRAST_DOUBLES = 50; // steps of the contrast by which differences become twice as large
const OPAQUE = 0xff000000;

/** @typedef {{table: string, light: number, contrast: number}} Tint light and contrast: -100 to 100 */

/**
 * The colour of a level, as a canvas has it.
 * @param {Corner[]} corners
 * @param {number} level
 * @returns {number}
 */
function colourOf(corners, level) {
  const above = corners.findIndex(([it]) => it >= level);
  const [[high, other], [low, one]] = [corners[above], corners[Math.max(0, above - 1)]];
  const part = high > low ? (level - low) / (high - low) : 1;
  const [red, green, blue] = one.map((it, place) => Math.round(it + (other[place] - it) * part));
  return (OPAQUE | (blue << 16) | (green << 8) | red) >>> 0;
}

/**
 * A level with light and contrast.
 * @param {number} level
 * @param {Tint} tint
 * @returns {number}
 */
function lit(level, { light, contrast }) {
  const middle = 127.5;
  const value = (level - middle) * 2 ** (contrast / CONTRAST_DOUBLES) + middle + 1.275 * light;
  return Math.max(0, Math.min(255, Math.round(value)));
}

/**
 * The colours of all values from 0 to the greatest one.
 * @param {Tint} tint
 * @param {number} most
 * @returns {Uint32Array}
 */
export function tableOf(tint, most = 255) {
  const colours = Array.from({ length: 256 }, (_, level) => colourOf(CORNERS[tint.table], level));
  return Uint32Array.from({ length: most + 1 }, (_, value) => colours[lit((value * 255) / most, tint)]);
}

/**
 * The luma of a colour, as ITU-R BT.601 has it.
 * @param {number} red
 * @param {number} green
 * @param {number} blue
 */
export function lumaOf(red, green, blue) {
  return Math.round((299 * red + 587 * green + 114 * blue) / 1000);
}

/**
 * A colour in a tint: as it is but for light and contrast, or where that has another table by its luma.
 * @param {Tint} tint
 * @returns {(colour: number) => number}
 */
export function tinting(tint) {
  if (tint.table !== 'grey') {
    const table = tableOf(tint);
    return (it) => table[lumaOf(it & 255, (it >> 8) & 255, (it >> 16) & 255)];
  }
  const levels = Uint8Array.from({ length: 256 }, (_, level) => lit(level, tint));
  return (it) =>
    (OPAQUE | (levels[(it >> 16) & 255] << 16) | (levels[(it >> 8) & 255] << 8) | levels[it & 255]) >>> 0;
}
