// What happens to one frame, layer by layer: its numbers and bytes, its packets, the files that they belong to and the
// lines of pictures; and what was lost with a frame that is lost.
import { COUNTER_MODULUS } from './forms.mjs';
import { linesOf, areaOf } from './lost.mjs';
import { segmentOf } from './segments.mjs';
import { frontOf } from './shelf.mjs';
import { nameOf } from './texts.mjs';
import { mendedOf, structureOf } from './xrit.mjs';

const COUNTS = 1 << 14; // of packets
const MOST_LOOKED = 96; // frames on each side of a gap that are looked at
const MOST_BACK = 400; // frames in which the beginning of a file is looked for
const MOST_REACH = 256; // frames before the first packet of a file ended
const FILL = 63;

/**
 * @typedef {import('./frames.mjs').FrameReader} FrameReader
 * @typedef {import('./frames.mjs').Frame} Frame
 * @typedef {import('./keeper.mjs').Keeper} Keeper
 * @typedef {import('./shelf.mjs').StoredFile} StoredFile
 * @typedef {import('./shelf.mjs').Front} Front
 * @typedef {import('./words.mjs').Said} Said
 * @typedef {{counter: number, packet: import('./frames.mjs').Packet | null}} Edge of a channel beside a gap
 */

/** The frames of a recording beside the files that came of them. */
export class Layers {
  /** @type {Map<number, number | null>} counts of the first packets of files */
  counts = new Map();
  /** @type {Map<number, Front>} */
  fronts = new Map();

  /**
   * @param {FrameReader} reader
   * @param {Keeper} keeper
   */
  constructor(reader, keeper) {
    this.reader = reader;
    this.keeper = keeper;
  }

  // ---- files

  /** @returns {[number, Front][]} the fronts of all files on the shelf */
  all() {
    const { keeper, fronts } = this;
    for (const [number, head] of keeper.heads) {
      if (!fronts.has(number)) fronts.set(number, frontOf(keeper.shelf, head));
    }
    return [...fronts];
  }

  /**
   * The file that a packet belongs to which begins in a frame, and its place among the packets; or null.
   * @param {number} number
   * @param {number} channel
   * @param {{application: number, count: number}} packet
   * @returns {{file: StoredFile, place: number} | null}
   */
  fileOf(number, channel, { application, count }) {
    const isNear = (/** @type {Front} */ it) =>
      it.channel === channel && it.application === application && it.frames !== null &&
      number <= it.frames[1] && number > it.frames[0] - MOST_REACH;
    const near = this.all().filter(([, it]) => isNear(it));
    near.sort(([, one], [, other]) => (one.frames?.[1] ?? 0) - (other.frames?.[1] ?? 0));
    for (const [at, front] of near) {
      const first = this.firstCount(at, front);
      const place = first === null ? -1 : (count - first + COUNTS) % COUNTS;
      const file = place >= 0 && place < front.packets ? this.keeper.file(at) : null;
      if (file) return { file, place };
    }
    return null;
  }

  /**
   * The count of the first packet of a file, or null where the frame in which it began can't be read.
   * @param {number} at
   * @param {Front} front
   * @returns {number | null}
   */
  firstCount(at, { channel, application, frames }) {
    const old = this.counts.get(at);
    if (old !== undefined || !frames) return old ?? null;
    let found = null;
    for (let number = frames[0]; number > frames[0] - MOST_BACK && number >= 0 && found === null; number -= 1) {
      const frame = this.reader.frame(number);
      const starts = frame?.channel === channel ? frame.packets : [];
      const first = starts.filter((it) => it.application === application && it.part & 1).at(-1);
      if (first) found = first.count;
    }
    this.counts.set(at, found);
    return found;
  }

  /**
   * The lines of a picture that some packets of a file have, or null.
   * @param {StoredFile} file
   * @param {number} from
   * @param {number} to
   * @returns {{first: number, last: number, name: string} | null}
   */
  lines(file, from, to) {
    const lines = linesOf(file, from, Math.min(to, file.packets));
    return lines && this.linesIn(file, lines);
  }

  /**
   * @param {StoredFile} file
   * @param {[number, number]} lines
   */
  linesIn(file, [from, to]) {
    const structure = file.header && structureOf(file.header);
    const segment = segmentOf(file);
    const size = { columns: structure?.columns ?? 0, lines: structure?.lines ?? 0 };
    const { top } = areaOf({ segment, size, lost: [] });
    const group = this.keeper.groups.all.find((it) => it.parts.some((part) => part.number === file.number));
    return { first: top + from + 1, last: top + to, name: group?.name ?? nameOf(file) };
  }

  // ---- a frame that was received

  /**
   * The files of the packets that begin in a frame, and their lines in pictures.
   * @param {number} number
   * @param {Frame} frame
   * @returns {{files: Said[], lines: Said[]}}
   */
  filesOf(number, { channel, packets }) {
    /** @type {Map<number, {file: StoredFile, from: number, to: number}>} */
    const found = new Map();
    for (const packet of packets.filter((it) => !it.isIdle)) {
      const its = this.fileOf(number, channel, packet);
      const old = its && found.get(its.file.number);
      if (old && its) old.to = its.place + 1;
      else if (its) found.set(its.file.number, { file: its.file, from: its.place, to: its.place + 1 });
    }
    const all = [...found.values()];
    const lines = all.flatMap(({ file, from, to }) => this.lines(file, from, to) ?? []);
    const files = all.map(({ file }) => saidOfFile(file));
    return { files, lines: lines.map((values) => ({ key: 'lines.text', values })) };
  }

  /**
   * The next frame after this one in which a part of a picture begins, or -1.
   * @param {number} number
   * @returns {number}
   */
  nextPicture(number) {
    const pictures = new Set(this.keeper.groups.all.flatMap((it) => it.parts.map((part) => part.number)));
    const all = this.all().filter(([at]) => pictures.has(at));
    const fronts = all.flatMap(([, it]) => (it.frames ? [{ ...it, frames: it.frames }] : []));
    for (let next = number + 1, tries = 0; next < this.reader.windows.length && tries < MOST_BACK; next += 1) {
      const here = fronts.filter(({ frames }) => next <= frames[1] && next >= frames[0]);
      if (!here.length) continue;
      tries += 1;
      const frame = this.reader.frame(next);
      const isOf = (/** @type {Front} */ it) =>
        frame?.channel === it.channel && frame.packets.some(({ application }) => application === it.application);
      if (here.some(isOf)) return next;
    }
    return -1;
  }

  // ---- a frame that is lost

  /**
   * The last frame of each channel before a gap, or the first one after it.
   * @param {number} number the first frame that is looked at
   * @param {number} step
   * @returns {Map<number, Edge>}
   */
  edges(number, step) {
    /** @type {Map<number, Edge>} */
    const found = new Map();
    for (let at = number, left = MOST_LOOKED; left > 0 && this.reader.windows[at]; at += step, left -= 1) {
      const frame = this.reader.frame(at);
      if (!frame || frame.channel < 0) continue;
      const old = found.get(frame.channel);
      const packet = frame.packets.filter((it) => !it.isIdle).at(step < 0 ? -1 : 0) ?? null;
      if (!old) found.set(frame.channel, { counter: frame.counter, packet });
      else old.packet ??= packet;
    }
    return found;
  }

  /**
   * What was lost with a frame, in words.
   * @param {number} number
   * @returns {Said[]}
   */
  lostWith(number) {
    const { windows } = this.reader;
    const isLost = (/** @type {number} */ at) => this.reader.frame(at)?.channel === -1;
    let [first, last] = [number, number];
    while (first > 0 && isLost(first - 1)) first -= 1;
    while (last + 1 < windows.length && isLost(last + 1)) last += 1;
    const [before, after] = [this.edges(first - 1, -1), this.edges(last + 1, 1)];
    const missing = [...before].flatMap(([channel, { counter }]) => {
      const next = after.get(channel);
      return next ? [{ channel, count: (next.counter - counter - 1 + COUNTER_MODULUS) % COUNTER_MODULUS }] : [];
    });
    const gone = missing.filter((it) => it.count > 0);
    if (gone.reduce((sum, it) => sum + it.count, 0) !== last - first + 1) return [{ key: 'lost.unknown' }];
    const others = gone.filter((it) => it.channel !== FILL);
    if (!others.length) return [{ key: 'lost.fill' }];
    return others.flatMap(({ channel }) => {
      const lines = this.lostLines(channel, [first, last], before.get(channel), after.get(channel));
      const rest = lines.length ? lines : this.lostSegment(channel, number);
      return [{ key: 'lost.channel', values: { channel } }, ...(rest.length ? rest : [saidKey('lost.file')])];
    });
  }

  /**
   * The lines of pictures for whose packets others stand in within a gap.
   * @param {number} channel
   * @param {[number, number]} gap
   * @param {Edge} [before]
   * @param {Edge} [after]
   * @returns {Said[]}
   */
  lostLines(channel, gap, before, after) {
    const isAround = (/** @type {Front} */ it) =>
      it.channel === channel && it.frames !== null && it.frames[0] <= gap[1] && it.frames[1] >= gap[0];
    const found = this.all().filter(([, it]) => isAround(it));
    return found.flatMap(([at, front]) => {
      const [file, count] = [this.keeper.file(at), this.firstCount(at, front)];
      const mended = file?.header && mendedOf(file.header);
      if (!file || !mended || count === null) return [];
      const placeOf = (/** @type {Edge | undefined} */ edge, /** @type {number} */ otherwise) =>
        edge?.packet?.application === front.application ? (edge.packet.count - count + COUNTS) % COUNTS : otherwise;
      const [from, to] = [placeOf(before, 0), placeOf(after, front.packets)];
      const end = to < from ? front.packets : to;
      return mended.runs
        .flatMap(([one, other]) => this.lines(file, Math.max(one, from), Math.min(other, end)) ?? [])
        .map((values) => ({ key: /** @type {const} */ ('lines.lost'), values }));
    });
  }

  /**
   * A segment of a picture that didn't come at all, between others around a frame.
   * @param {number} channel
   * @param {number} number
   * @returns {Said[]}
   */
  lostSegment(channel, number) {
    const fronts = new Map(this.all());
    return this.keeper.groups.all.flatMap((group) => {
      const parts = group.parts.flatMap(({ number: at, segment }) => {
        const front = fronts.get(at);
        return segment && front?.frames && front.channel === channel ? [{ at, segment, frames: front.frames }] : [];
      });
      const [one] = parts;
      const before = parts.filter((it) => it.frames[1] < number).map((it) => it.segment.number);
      const after = parts.filter((it) => it.frames[0] > number).map((it) => it.segment.number);
      const place = before.length ? Math.max(...before) + 1 : after.length ? Math.min(...after) - 1 : -1;
      const isInside = one && place >= 0 && place < one.segment.total;
      const isThere = parts.some((it) => it.segment.number === place);
      const file = isInside && !isThere ? this.keeper.file(one.at) : null;
      const lines = file?.header && structureOf(file.header)?.lines;
      if (!lines) return [];
      const values = { name: group.name, first: place * lines + 1, last: (place + 1) * lines };
      return [{ key: /** @type {const} */ ('lines.whole'), values }];
    });
  }
}

/** @param {import('./words.mjs').Key} key @returns {Said} */
const saidKey = (key) => ({ key });

/**
 * @param {StoredFile} file
 * @returns {Said}
 */
function saidOfFile(file) {
  const [first, last] = file.frames ?? [0, 0];
  return { key: 'file.text', values: { name: nameOf(file), packets: file.packets, first, last } };
}
