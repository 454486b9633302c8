// How well a reception goes over its length: from the lines of `decode`, or of `frames` where these are read.
import { COUNTER_MODULUS, FRAME_SYMBOLS } from './forms.mjs';

const BUCKETS = 160;
const MOST_MISSING = 4096; // frames in succession; beyond these a channel begins again
const WORD_LIMIT = 16; // bytes of a word that one pass can correct; more tell that it was decoded again

/**
 * Frames, those lost, those restored by decoding them again, and corrected bytes.
 * @typedef {{frames: number, lost: number, redecoded: number, corrected: number}} Bucket
 */

/** The outcomes of frames by their places. */
export class Curve {
  /** @type {Map<number, number>} the last counter of each channel */
  counters = new Map();

  /** @param {number} frames in the whole recording, if they followed one another */
  constructor(frames) {
    this.frames = frames || 1;
    /** @type {Bucket[]} */
    this.buckets = Array.from({ length: BUCKETS }, () => ({ frames: 0, lost: 0, redecoded: 0, corrected: 0 }));
    this.total = { frames: 0, lost: 0, redecoded: 0, corrected: 0 };
  }

  /**
   * @param {number} frame how many frames before it there is room for
   * @param {Bucket} more
   */
  add(frame, more) {
    const place = Math.min(BUCKETS - 1, Math.floor((frame / this.frames) * BUCKETS));
    for (const it of [this.buckets[place], this.total]) {
      it.frames += more.frames;
      it.lost += more.lost;
      it.redecoded += more.redecoded;
      it.corrected += more.corrected;
    }
  }

  /**
   * Takes a line, as `window 0 at 0 polarity + restored 0 0 0 0`, or `frame 0 vc 0 counter 0` and more.
   * @param {string} line
   */
  take(line) {
    const words = line.split(' ');
    if (words[0] === 'frame' && words[4] === 'counter') {
      this.count(Number(words[1]), Number(words[3]), Number(words[5]));
    }
    if (words[0] !== 'window' || words.length < 8) return;
    const isLost = words[6] === 'lost';
    const numbers = isLost ? [] : words.slice(7, 11).map(Number);
    const corrected = numbers.reduce((sum, it) => sum + it, 0);
    const redecoded = Number(numbers.some((it) => it > WORD_LIMIT));
    this.add(Number(words[3]) / FRAME_SYMBOLS, { frames: 1, lost: Number(isLost), redecoded, corrected });
  }

  /**
   * Takes a frame, whose counter tells how many of its channel are missing before it.
   * @param {number} frame
   * @param {number} channel
   * @param {number} counter
   */
  count(frame, channel, counter) {
    const before = this.counters.get(channel) ?? counter - 1;
    this.counters.set(channel, counter);
    const missing = (counter - before - 1 + COUNTER_MODULUS) % COUNTER_MODULUS;
    const lost = missing <= MOST_MISSING ? missing : 0;
    this.add(frame, { frames: 1 + lost, lost, redecoded: 0, corrected: 0 });
  }
}

/**
 * Lines of what comes in pieces.
 * @param {(line: string) => void} each
 * @returns {(piece: Uint8Array) => void}
 */
export function lineReader(each) {
  let rest = '';
  const decoder = new TextDecoder();
  return (piece) => {
    const lines = (rest + decoder.decode(piece, { stream: true })).split('\n');
    rest = lines.pop() ?? '';
    lines.forEach(each);
  };
}
