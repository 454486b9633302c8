// The signal of a radio, drawn: BPSK with root raised cosine pulses, a carrier off the middle, and noise, as an RTL-SDR
// would give it. So the page has a recording of samples without a radio.
import { DOWNLINKS } from './iq.mjs';

export const DRAWN_SIGNAL = { rate: 2_400_000, downlink: 'goes-hrit', form: 'u8' };
const [CARRIER, CARRIER_PERIOD] = [7000, 2400]; // Hz from the middle, and samples in which it turns whole times
const DRAWN_RATIO = 10 ** (5 / 10); // Es/N0, of 5 dB
const DRAWN_RMS = 30; // of all, in steps
const DRAWN_MIDDLE = 127.5;
const [PULSE_REACH, PULSE_PLACES] = [8, 256]; // symbols of a pulse to each side, and places of a symbol with one
const NORMALS = 1 << 16; // drawn once
const PART_SAMPLES = 1 << 18;
const DRAWN_TAIL = 200; // symbols of nothing at the end, in which the demodulator's filter runs out

/**
 * The root raised cosine of energy 1, `t` symbols from its middle.
 * @param {number} t
 * @param {number} rollOff
 * @returns {number}
 */
export function pulse(t, rollOff) {
  const x = Math.PI * t;
  const divisor = 1 - (4 * rollOff * t) ** 2;
  if (Math.abs(t) < 1e-9) return 1 - rollOff + (4 * rollOff) / Math.PI;
  if (Math.abs(divisor) < 1e-9) {
    const angle = Math.PI / 4 / rollOff;
    const [s, c] = [Math.sin(angle), Math.cos(angle)];
    return (rollOff / Math.SQRT2) * ((1 + 2 / Math.PI) * s + (1 - 2 / Math.PI) * c);
  }
  return (Math.sin(x * (1 - rollOff)) + 4 * rollOff * t * Math.cos(x * (1 + rollOff))) / (x * divisor);
}

/** Whole numbers that look drawn, always the same ones. (Marsaglia's xorshift.) */
class Xorshift {
  state = 2463534242;

  next() {
    this.state ^= this.state << 13;
    this.state ^= this.state >>> 17;
    this.state ^= this.state << 5;
    return this.state >>> 0;
  }
}

/** Numbers of a normal distribution. (Box and Muller.) */
function normalNumbers() {
  const drawn = new Xorshift();
  const part = () => (drawn.next() + 0.5) / 2 ** 32;
  const normal = () => Math.sqrt(-2 * Math.log(part())) * Math.cos(2 * Math.PI * part());
  return Float64Array.from({ length: NORMALS }, normal);
}

/**
 * The pulses at each place of a symbol: rows of 2 PULSE_REACH values.
 * @param {number} rollOff
 */
function pulses(rollOff) {
  const row = 2 * PULSE_REACH;
  return Float64Array.from({ length: PULSE_PLACES * row }, (_, at) =>
    pulse(Math.floor(at / row) / PULSE_PLACES - ((at % row) - PULSE_REACH + 1), rollOff));
}

/** A signal that goes on from part to part. */
class Sender {
  /** @param {Int8Array} symbols */
  constructor(symbols) {
    const { symbols: rate, rollOff } = DOWNLINKS[DRAWN_SIGNAL.downlink];
    this.levels = new Float64Array(symbols.length + DRAWN_TAIL + 4 * PULSE_REACH); // with nothing before and after them
    symbols.forEach((it, at) => (this.levels[PULSE_REACH + at] = Math.sign(it)));
    this.each = rate / DRAWN_SIGNAL.rate;
    const turn = (/** @type {number} */ at) => (2 * Math.PI * CARRIER * at) / DRAWN_SIGNAL.rate;
    this.cosines = Float64Array.from({ length: CARRIER_PERIOD }, (_, at) => Math.cos(turn(at)));
    this.sines = Float64Array.from({ length: CARRIER_PERIOD }, (_, at) => Math.sin(turn(at)));
    this.table = pulses(rollOff);
    this.normals = normalNumbers();
    this.numbers = new Xorshift();
    const noise = 1 / this.each / DRAWN_RATIO; // its power, where the signal's is 1
    this.scale = DRAWN_RMS / Math.sqrt((1 + noise) / 2);
    this.sigma = Math.sqrt(noise / 2);
    this.count = Math.floor((symbols.length + DRAWN_TAIL) / this.each);
  }

  /**
   * The signal's level at a sample, without carrier and noise.
   * @param {number} sample
   */
  level(sample) {
    const time = sample * this.each;
    const whole = Math.floor(time);
    const row = 2 * PULSE_REACH * Math.floor((time - whole) * PULSE_PLACES);
    let sum = 0;
    for (let tap = 0; tap < 2 * PULSE_REACH; tap += 1) sum += this.levels[whole + 1 + tap] * this.table[row + tap];
    return sum;
  }

  /**
   * @param {number} from the first sample
   * @returns {Uint8Array}
   */
  part(from) {
    const bytes = new Uint8Array(2 * Math.min(PART_SAMPLES, this.count - from));
    for (let at = 0; at < bytes.length; at += 2) {
      const sample = from + at / 2;
      const level = this.level(sample);
      const drawn = this.numbers.next();
      const [i, q] = [this.normals[drawn % NORMALS], this.normals[(drawn >>> 16) % NORMALS]];
      bytes[at] = byteAt(this.scale * (level * this.cosines[sample % CARRIER_PERIOD] + this.sigma * i));
      bytes[at + 1] = byteAt(this.scale * (level * this.sines[sample % CARRIER_PERIOD] + this.sigma * q));
    }
    return bytes;
  }
}

/** @param {number} value */
const byteAt = (value) => Math.max(0, Math.min(255, Math.round(value + DRAWN_MIDDLE)));

/**
 * The samples of soft symbols, part by part.
 * @param {Uint8Array} bytes a signed byte a symbol
 * @returns {Generator<Uint8Array>}
 */
export function* modulated(bytes) {
  const sender = new Sender(new Int8Array(bytes.buffer, bytes.byteOffset, bytes.length));
  for (let from = 0; from < sender.count; from += PART_SAMPLES) yield sender.part(from);
}
