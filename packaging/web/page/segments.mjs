// Which files are parts of one picture: the segment records of NOAA, of Himawari and GK-2A, and of ELEKTRO. Which form
// a record has, its length says. What is joined is what the tool gomtasil joins; segments.json has cases for both.
import { nameOf } from './texts.mjs';
import { KINDS, TYPES, firstOf, mendedOf, structureOf, viewOf } from './xrit.mjs';

const NOAA_BYTES = 14; // image, number from 0, start column, start line, segments, columns, lines
const NUMBERED_BYTES = 4; // number from 1, segments, start line
const PLANNED_BYTES = 10; // spacecraft, channel, number, first and last of the image, form of the field
const MOST_SEGMENTS = 255; // of the two latter forms
export const MOST_PIXELS = 134_217_728; // of an image that is put together
const MOST_RUNS = 20; // of missing numbers that are told

/**
 * @typedef {import('./shelf.mjs').StoredFile} StoredFile
 * @typedef {import('./xrit.mjs').Mended} Mended
 * @typedef {object} Part
 * @property {number} number that of the file
 * @property {Segment | null} segment
 * @property {Mended | null} mended
 * @property {string} origin the record of its time stamp, and its annotation
 * @typedef {object} Segment which part of which picture a file is
 * @property {string} key the same for all segments of a picture
 * @property {number} number from 0
 * @property {number} total
 * @property {number} left of the whole picture, in pixels
 * @property {number | null} top null: by its number, as all segments have as many lines
 * @property {number | null} columns of the whole picture; null: those of the segment
 * @property {number | null} lines
 * @property {number} first what the sender counts from
 */

/**
 * The segment that a file is, by any of the three forms of record, or null.
 * @param {StoredFile} file
 * @returns {Segment | null}
 */
export function segmentOf(file) {
  const { header } = file;
  const found = header && firstOf(header, KINDS.segment);
  const structure = header && structureOf(header);
  if (!header || !found || !structure || header.fileType !== TYPES.image) return null;
  const whose = [file.channel, file.application];
  if (found.length === NOAA_BYTES) return noaaSegment(found, whose);
  const numbers = numbersOf(found);
  if (!numbers) return null;
  const { number, first, last, band } = numbers;
  const total = last - first + 1;
  const pixels = structure.columns * structure.lines * total;
  if (!(first <= number && number <= last) || total > MOST_SEGMENTS || pixels > MOST_PIXELS) return null;
  const name = unnumbered(nameOf(file), number);
  const key = JSON.stringify([...whose, structure.bits, structure.columns, total, band, name]);
  return { key, number: number - first, total, left: 0, top: null, columns: null, lines: null, first };
}

/**
 * @param {Uint8Array} found
 * @param {number[]} whose
 * @returns {Segment | null}
 */
function noaaSegment(found, whose) {
  const view = viewOf(found);
  const [image, number, left, top, total, columns, lines] = [0, 2, 4, 6, 8, 10, 12].map((it) => view.getUint16(it));
  if (!total) return null;
  const key = JSON.stringify([...whose, image, total, columns, lines]);
  return { key, number, total, left, top, columns, lines, first: 0 };
}

/**
 * The numbers of a segment in one of the two shorter forms.
 * @param {Uint8Array} found
 * @returns {{number: number, first: number, last: number, band: number} | null}
 */
function numbersOf(found) {
  const view = viewOf(found);
  if (found.length === NUMBERED_BYTES) return { number: found[0], first: 1, last: found[1], band: 0 };
  if (found.length !== PLANNED_BYTES) return null;
  const [number, first, last] = [3, 5, 7].map((it) => view.getUint16(it));
  return { number, first, last, band: found[2] };
}

/**
 * A name without its last run of digits that says this number, so that all segments of a picture have the same.
 * @param {string} name
 * @param {number} number
 * @returns {string}
 */
export function unnumbered(name, number) {
  const runs = [...name.matchAll(/[0-9]+/g)].filter((it) => BigInt(it[0]) === BigInt(number));
  const last = runs.at(-1);
  return last ? name.slice(0, last.index) + name.slice((last.index ?? 0) + last[0].length) : name;
}

/**
 * Numbers with their runs drawn together, and at most some of these.
 * @param {number[]} numbers
 * @returns {string}
 */
export function inWords(numbers) {
  /** @type {[number, number][]} */
  const runs = [];
  for (const it of numbers) {
    const last = runs.at(-1);
    if (last && it === last[1] + 1) last[1] = it;
    else runs.push([it, it]);
  }
  const words = runs.slice(0, MOST_RUNS).map(([from, to]) => (from === to ? `${from}` : `${from} to ${to}`));
  return words.concat(runs.length > MOST_RUNS ? [`and ${runs.length - MOST_RUNS} more`] : []).join(' ');
}

/** A file, or the segments of one picture. */
export class Group {
  /**
   * @param {number} id
   * @param {StoredFile} file the first one that came
   */
  constructor(id, file) {
    this.id = id;
    this.name = nameOf(file);
    this.header = file.header;
    /** @type {Part[]} */
    this.parts = [];
  }

  /** @returns {Segment | null} */
  get segment() {
    return this.parts[0].segment;
  }

  /**
   * The numbers of the segments that aren't there, as the sender counts, but from 1 where that is from 0.
   * @returns {number[]}
   */
  get missing() {
    const one = this.segment;
    if (!one) return [];
    const all = Array.from({ length: one.total }, (_, place) => place);
    const here = new Set(this.parts.map((it) => it.segment?.number));
    return all.filter((it) => !here.has(it)).map((it) => it + (one.first || 1));
  }

  /**
   * How many packets of its files stand in for some that were lost, or null where none does.
   * @returns {Mended | null}
   */
  get mended() {
    const all = this.parts.flatMap((it) => (it.mended ? [it.mended] : []));
    if (!all.length) return null;
    const sum = (/** @type {'fillers' | 'packets'} */ key) => all.reduce((before, it) => before + it[key], 0);
    return { fillers: sum('fillers'), packets: sum('packets') };
  }

  /**
   * Takes a file. False where it belongs to another picture, as this one has its number already. Of a mended segment and
   * a whole one with the same time stamp and annotation the whole one is kept.
   * @param {Part} part
   * @returns {boolean}
   */
  add(part) {
    const { segment, mended, origin } = part;
    const place = segment ? this.parts.findIndex((it) => it.segment?.number === segment.number) : -1;
    const old = this.parts[place];
    if (!old) this.parts.push(part);
    else if (old.origin !== origin || Boolean(old.mended) === Boolean(mended)) return false;
    else if (old.mended) this.parts[place] = part;
    return true;
  }
}

/** The pictures of a shelf, whose files come one after another. */
export class Groups {
  constructor() {
    /** @type {Group[]} */
    this.all = [];
    /** @type {Map<string, Group>} */
    this.opened = new Map();
  }

  /**
   * The picture that an image file belongs to.
   * @param {StoredFile} file
   * @returns {Group}
   */
  add(file) {
    const segment = segmentOf(file);
    const { number, header } = file;
    const origin = String([KINDS.stamp, KINDS.annotation].map((kind) => header && firstOf(header, kind)?.join(' ')));
    const part = { number, segment, mended: header && mendedOf(header), origin };
    const opened = segment && this.opened.get(segment.key);
    if (opened && opened.add(part)) return opened;
    const group = new Group(this.all.length, file);
    group.add(part);
    this.all.push(group);
    if (segment) this.opened.set(segment.key, group);
    return group;
  }
}
