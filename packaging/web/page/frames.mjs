// Frames of a recording, decoded a second time to be shown: numbers, bytes, and the packets that begin in them.
import { correctedBlock, randomised } from './codewords.mjs';
import { bytesOf } from './devices.mjs';
import { FORMS, FRAME_SYMBOLS } from './forms.mjs';
import { TRIED_BYTES } from './search.mjs';
import { frameSymbols, hitsOf, nearestBits, packed, unpackedBits, wrongSigns } from './trellis.mjs';
import { viewOf } from './xrit.mjs';

export const DATA_BYTES = 892;
const TAIL_SYMBOLS = 12; // of the next frame, by which the last bits are told
const FRAME_HEAD_BYTES = 8; // of a frame
const PACKET_HEAD_BYTES = 6;
const FILL_CHANNEL = 63;
const [NO_START, ONLY_FILL] = [2047, 2046]; // in place of where the first packet begins
const IDLE_APPLICATION = 2047;
const MOST_KEPT = 256; // frames that aren't decoded again
const LEAST_VALUE = -127;

/**
 * @typedef {import('./windows.mjs').Window} Window
 * @typedef {{start: number, application: number, part: number, count: number, size: number, isIdle: boolean}} Packet
 *   part: 0 middle, 1 first, 2 last, 3 all of a file; size: of its data field, in bytes
 * @typedef {object} Frame
 * @property {Int8Array} values the numbers, as they were heard
 * @property {number} hits numbers of the marker that agree
 * @property {{wrong: number, compared: number} | null} signs none where it is lost
 * @property {Uint8Array} before the bytes of the block by the nearest path
 * @property {Uint8Array | null} after the corrected ones
 * @property {number} channel -1 where it is lost
 * @property {number} counter
 * @property {boolean} isFill
 * @property {Packet[]} packets that begin in it
 */

/**
 * The packets that begin in a frame, whose heads stand in it whole.
 * @param {Uint8Array} frame
 * @returns {Packet[]}
 */
export function packetsIn(frame) {
  const view = viewOf(frame);
  const pointer = view.getUint16(FRAME_HEAD_BYTES - 2) & 0x7ff;
  const found = [];
  if (pointer === NO_START || pointer === ONLY_FILL) return [];
  for (let start = FRAME_HEAD_BYTES + pointer; start + PACKET_HEAD_BYTES <= DATA_BYTES; ) {
    const [first, second] = [view.getUint16(start), view.getUint16(start + 2)];
    const size = view.getUint16(start + 4) + 1;
    const application = first & 0x7ff;
    const isIdle = application === IDLE_APPLICATION;
    found.push({ start, application, part: second >> 14, count: second & 0x3fff, size, isIdle });
    start += PACKET_HEAD_BYTES + size;
  }
  return found;
}

/** A recording whose frames are decoded again. */
export class FrameReader {
  /** @type {Map<number, Frame>} */
  kept = new Map();

  /**
   * @param {Blob} file
   * @param {import('./forms.mjs').Found} found
   * @param {Window[]} windows
   */
  constructor(file, found, windows) {
    this.file = file;
    this.found = found;
    this.windows = windows;
    /** @type {import('./devices.mjs').Turn | null} */
    this.turn = null;
  }

  /**
   * Numbers from a place on, fewer where the recording ends.
   * @param {number} place
   * @param {number} count
   * @returns {Int8Array}
   */
  numbers(place, count) {
    const { unit, gives, turnFor } = FORMS[this.found.form];
    this.turn ??= turnFor(bytesOf(this.file.slice(0, TRIED_BYTES)));
    const [first, last] = [Math.floor(place / gives), Math.ceil((place + count) / gives)];
    const symbols = this.turn(bytesOf(this.file.slice(first * unit, last * unit)));
    const from = place - first * gives;
    return new Int8Array(symbols.slice(from, from + count).buffer);
  }

  /**
   * A frame by its number, or null where there is none.
   * @param {number} number
   * @returns {Frame | null}
   */
  frame(number) {
    const window = this.windows[number];
    const { code } = this.found;
    if (!window || !code) return null;
    const old = this.kept.get(number);
    if (old) return old;
    const made = this.decoded(window, code);
    if (this.kept.size >= MOST_KEPT) this.kept.clear();
    this.kept.set(number, made);
    return made;
  }

  /**
   * @param {Window} window
   * @param {import('./forms.mjs').Code} code
   * @returns {Frame}
   */
  decoded({ at, isInverted }, code) {
    const heard = this.numbers(at, FRAME_SYMBOLS + TAIL_SYMBOLS);
    const turned = heard.map((it) => (isInverted ? -1 : 1) * Math.max(LEAST_VALUE, it));
    const before = randomised(packed(nearestBits(code, turned)));
    const answer = correctedBlock(before);
    const after = 'lost' in answer ? null : answer.block;
    const signs = after && wrongSigns(frameSymbols(code, unpackedBits(randomised(after))), turned);
    const view = viewOf(after ?? before);
    const channel = after ? view.getUint16(0) & 0x3f : -1;
    return {
      values: heard.subarray(0, FRAME_SYMBOLS),
      hits: hitsOf(code, turned),
      signs,
      before,
      after,
      channel,
      counter: view.getUint32(2) >>> 8,
      isFill: channel === FILL_CHANNEL,
      packets: after && channel !== FILL_CHANNEL ? packetsIn(after) : [],
    };
  }
}
