// Which parts of a picture were lost: the segments that didn't come, and the lines of packets that others stand in for.
import { TRANSPORT_BYTES, endsOf } from './shelf.mjs';
import { linesPerPacket, mendedOf, structureOf } from './xrit.mjs';

const MOST_AREAS = 4096; // that are marked
const MOST_BESIDE = 64; // of a band of lines that are looked at for the next one

/**
 * @typedef {import('./shelf.mjs').StoredFile} StoredFile
 * @typedef {import('./segments.mjs').Segment} Segment
 * @typedef {import('./paint.mjs').Area} Area
 * @typedef {{columns: number, lines: number}} Size
 * @typedef {{segment: Segment | null, size: Size, lost: [number, number][]}} Piece a file of a picture, its size and
 *   the runs of lines that it lacks
 */

/**
 * The lines of an image that come from its packets from one to before another, or null where that can't be told.
 * @param {StoredFile} file
 * @param {number} from
 * @param {number} to
 * @returns {[number, number] | null} the first one, and the one after the last
 */
export function linesOf(file, from, to) {
  const { header, packets } = file;
  const structure = header && structureOf(header);
  const ends = endsOf(file);
  if (!header || !structure || !structure.columns || !structure.lines || !ends.length || to > packets) return null;
  const front = TRANSPORT_BYTES + header.size;
  let [first, last] = [0, 0];
  if (structure.compression) {
    const each = linesPerPacket(header);
    // (the first packet may hold the header alone, and then lines begin with the next one)
    const late = ends[0] <= front ? 1 : 0;
    [first, last] = [(from - late) * each, (to - late) * each];
  } else {
    const row = structure.bits * structure.columns;
    const start = (/** @type {number} */ place) => 8 * ((place ? ends[place - 1] : 0) - front);
    [first, last] = [Math.floor(start(from) / row), Math.ceil(start(to) / row)];
  }
  [first, last] = [Math.max(0, first), Math.min(structure.lines, last)];
  return first < last ? [first, last] : null;
}

/**
 * The runs of lines that a file lacks.
 * @param {StoredFile} file
 * @returns {[number, number][]}
 */
export function lostLines(file) {
  const mended = file.header && mendedOf(file.header);
  return (mended?.runs ?? []).flatMap(([from, to]) => {
    const lines = linesOf(file, from, to);
    return lines ? [lines] : [];
  });
}

/**
 * Where a file stands in its picture.
 * @param {Piece} piece
 * @returns {Area}
 */
export function areaOf({ segment, size }) {
  return { left: segment?.left ?? 0, top: segment ? (segment.top ?? segment.number * size.lines) : 0, ...size };
}

/**
 * The parts of a picture that were lost.
 * @param {Piece[]} pieces
 * @param {Size} size of the picture
 * @returns {Area[]}
 */
export function lostAreas(pieces, size) {
  const areas = pieces.map(areaOf);
  const within = pieces.flatMap(({ lost }, place) =>
    lost.map(([from, to]) => ({ ...areas[place], top: areas[place].top + from, lines: to - from })),
  );
  return [...uncovered(areas, size), ...within].slice(0, MOST_AREAS);
}

/**
 * What none of these areas covers, in bands of lines in which the same ones stand.
 * @param {Area[]} areas
 * @param {Size} size
 * @returns {Area[]}
 */
function uncovered(areas, { columns, lines }) {
  const ends = new Set([0, lines, ...areas.flatMap((it) => [it.top, it.top + it.lines])]);
  const edges = [...ends].filter((it) => it >= 0 && it <= lines).sort((one, other) => one - other);
  const waiting = [...areas].sort((one, other) => other.top - one.top);
  /** @type {Area[]} */
  let here = [];
  /** @type {Area[]} */
  const found = [];
  for (let place = 1; place < edges.length && found.length < MOST_AREAS; place += 1) {
    const top = edges[place - 1];
    while (waiting.length && waiting[waiting.length - 1].top <= top) here.push(/** @type {Area} */ (waiting.pop()));
    here = here.filter((it) => it.top + it.lines > top);
    for (const [left, right] of gapsOf(here, columns)) {
      addBand(found, { left, top, columns: right - left, lines: edges[place] - top });
    }
  }
  return found;
}

/**
 * The columns that none of these areas has, from the left.
 * @param {Area[]} areas
 * @param {number} columns
 * @returns {[number, number][]}
 */
function gapsOf(areas, columns) {
  /** @type {[number, number][]} */
  const found = [];
  let left = 0;
  for (const it of [...areas].sort((one, other) => one.left - other.left)) {
    if (it.left > left) found.push([left, Math.min(columns, it.left)]);
    left = Math.max(left, it.left + it.columns);
  }
  return left < columns ? [...found, [left, columns]] : found;
}

/**
 * Takes an area, which goes on with the one above it where that has the same columns.
 * @param {Area[]} all
 * @param {Area} area
 */
function addBand(all, area) {
  const isAbove = (/** @type {Area} */ it) =>
    it.left === area.left && it.columns === area.columns && it.top + it.lines === area.top;
  const above = all.slice(-MOST_BESIDE).find(isAbove);
  if (above) above.lines += area.lines;
  else all.push(area);
}
