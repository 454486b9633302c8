// The Worker of a live source: `lr_live` receives what a WebSocket brings. Where nothing is there its call waits for
// the next piece, by JSPI, and this Worker hears messages meanwhile.
import { PASSES, Reception } from '../page/receiver.mjs';
import { MOST_CAPACITY } from '../page/shelf.mjs';
import { Station, textOf } from '../page/station.mjs';

const MOST_WAITING = 1 << 28; // bytes that wait for the receiver
const TOLD_BYTES = 1 << 18; // between two words on how much came
const FAILED = -1n;
const JSPI = /** @type {any} */ (WebAssembly);

/** What a WebSocket brings, in the order in which it comes. */
class SocketInput {
  /** @type {Uint8Array[]} */
  pieces = [];
  waiting = 0;
  isEnded = false;
  wake = () => {};

  /**
   * @param {string} url
   * @param {() => void} opened
   */
  constructor(url, opened) {
    this.socket = new WebSocket(url);
    this.socket.binaryType = 'arraybuffer';
    this.socket.onopen = opened;
    this.socket.onmessage = ({ data }) => this.add(data);
    this.socket.onclose = () => this.end();
  }

  /** @param {ArrayBuffer | string} data */
  add(data) {
    if (this.isEnded || typeof data === 'string') return;
    this.pieces.push(new Uint8Array(data));
    this.waiting += data.byteLength;
    if (this.waiting > MOST_WAITING) this.end();
    this.wake();
  }

  /** What came before is still received. */
  end() {
    this.isEnded = true;
    this.socket.close();
    this.wake();
  }

  /**
   * The next bytes, `most` at most, once there are some; none at the end.
   * @param {number} most
   */
  async take(most) {
    while (!this.waiting && !this.isEnded) await new Promise((go) => (this.wake = () => go(null)));
    while (this.pieces.length && !this.pieces[0].length) this.pieces.shift();
    if (!this.pieces.length) return new Uint8Array(0);
    const part = this.pieces[0].subarray(0, most);
    this.pieces[0] = this.pieces[0].subarray(part.length);
    this.waiting -= part.length;
    return part;
  }
}

/** A station whose `take` may wait. */
class LiveStation extends Station {
  /** @type {SocketInput | null} */
  input = null;
  came = 0;

  environment() {
    /** @param {bigint} place @param {bigint} count */
    const take = (place, count) => this.taken(place, count).catch(() => FAILED);
    return { ...super.environment(), lr_host_take: new JSPI.Suspending(take) };
  }

  /** @param {bigint} place @param {bigint} count */
  async taken(place, count) {
    const part = (await this.input?.take(Number(count))) ?? new Uint8Array(0);
    this.window(place, count).set(part);
    const before = this.came;
    this.came += part.length;
    const isTold = Math.floor(before / TOLD_BYTES) < Math.floor(this.came / TOLD_BYTES);
    if (isTold) postMessage({ kind: 'came', bytes: this.came });
    return BigInt(part.length);
  }

  /**
   * One command over devices, whose input may wait. Its status.
   * @param {string[]} words
   * @param {Reception} reception
   * @returns {Promise<number>}
   */
  async awaited(words, { shelf, put }) {
    const text = textOf(words);
    const place = this.room(text.length);
    new Uint8Array(this.memory.buffer, place, text.length).set(text);
    this.devices = { input: { take: () => 0 }, shelf, put };
    return JSPI.promising(this.exports.lr_live)(BigInt(place), BigInt(text.length));
  }
}

/** @type {WebAssembly.Module} */
let module;
/** @type {SocketInput} */
let input;

/** @type {Record<string, (message: any) => unknown>} */
const TASKS = {
  load: (message) => {
    module = message.module;
  },
  listen: async ({ url, options, port }) => {
    const reception = new Reception((change) => port.postMessage(change));
    await new LiveStation(module).awaited(['init', String(MOST_CAPACITY)], reception);
    const station = new LiveStation(module);
    input = station.input = new SocketInput(url, () => postMessage({ kind: 'open' }));
    const status = await station.awaited(['receive', ...options, ...PASSES, '--mend', '64'], reception);
    input.end();
    port.postMessage({ kind: 'end' });
    const fault = station.fault ? String(station.fault) : '';
    postMessage({ kind: 'received', status, last: reception.last, err: reception.err.trim(), fault });
  },
  stop: () => input.end(),
};

onmessage = async ({ data }) => {
  try {
    await TASKS[data.kind](data);
  } catch (fault) {
    postMessage({ kind: 'failed', text: String(fault) });
  }
};
