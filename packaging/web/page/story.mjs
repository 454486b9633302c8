// What happens, layer by layer, to one frame of the recording: its numbers as dots, its marker, its bytes with those
// that were corrected, its packets, the files that they make and their lines; and what was lost with a lost frame.
import { at, element } from './elements.mjs';
import { nodesOf, rich, text } from './words.mjs';

const [DOTS_WIDTH, DOTS_HEIGHT] = [1024, 257];
const [CELL, CELLS_WIDE] = [12, 68]; // of the bytes of a block
const HEAD_END = 8;
const DATA_END = 892;
const MOST_IN_PASS = 16; // bytes that are corrected in a word without decoding it again
const NEXT_LOOKED = 1; // frames beyond the one that is shown

/**
 * @typedef {import('./messages.mjs').Layered} Layered
 * @typedef {import('./windows.mjs').Window} Window
 * @typedef {import('./frames.mjs').Frame} Frame
 * @typedef {import('./words.mjs').Key} Key
 * @typedef {import('./words.mjs').Said} Said
 */

/** @param {string} name a colour of the page's style */
const colour = (name) => getComputedStyle(document.body).getPropertyValue(`--${name}`);

export class Story {
  /** @type {Window[]} */
  windows = [];
  number = 0;

  /** @param {import('./view.mjs').Ask} ask */
  constructor(ask) {
    this.ask = ask;
    at('layers-number').onchange = () => this.show(Number(at('layers-number').value));
    at('layers-before').onclick = () => this.show(this.number - 1);
    at('layers-after').onclick = () => this.show(this.number + 1);
    at('layers-lost').onclick = () => this.show(this.nextLost());
    at('layers-next').onclick = () => this.show(this.number, true);
    at('layers-box').ontoggle = () => {
      if (at('layers-box').open && !at('layers').hasChildNodes()) this.show(this.number, true);
    };
  }

  clear() {
    this.windows = [];
    this.number = 0;
    at('layers').replaceChildren();
    at('layers-box').open = false;
    at('layers-section').hidden = true;
  }

  /** @param {Window[]} windows the next ones */
  take(windows) {
    for (const it of windows) this.windows.push(it);
    at('layers-section').hidden = this.windows.length === 0;
    at('layers-number').max = this.windows.length - 1;
    at('layers-lost').disabled = !this.windows.some((it) => it.lost >= 0);
  }

  /** @returns {number} the next frame that is lost, from the beginning again where there is none after this one */
  nextLost() {
    const isLost = (/** @type {Window} */ it) => it.lost >= 0;
    const next = this.windows.findIndex((it, place) => place >= this.number + NEXT_LOOKED && isLost(it));
    return next >= 0 ? next : this.windows.findIndex(isLost);
  }

  /**
   * Shows the frame that stands at a part of the recording; where some there are lost, the first of these.
   * @param {number} from 0 to 1
   * @param {number} to
   */
  showAt(from, to) {
    const length = this.windows.at(-1)?.at ?? 0;
    const first = this.windows.findIndex((it) => it.at >= from * length);
    const lost = this.windows.findIndex((it) => it.lost >= 0 && it.at >= from * length && it.at <= to * length);
    if (first < 0) return;
    at('layers-box').open = true;
    this.show(lost >= 0 ? lost : first);
    at('layers-section').scrollIntoView({ behavior: 'smooth' });
  }

  /**
   * @param {number} number
   * @param {boolean} [isNext] the next one after it in which a part of a picture begins
   */
  show(number, isNext = false) {
    const place = Math.max(0, Math.min(this.windows.length - 1, number));
    this.number = place;
    at('layers').replaceChildren(element('p', { textContent: text('layers.wait') }));
    this.ask({ kind: 'layers', number: place, isNext });
  }

  /** @param {import('./messages.mjs').LayersTold} told */
  told({ number, layered }) {
    if (!layered) {
      at('layers').replaceChildren(element('p', { textContent: text('layers.none') }));
      return;
    }
    this.number = number;
    at('layers-number').value = number;
    at('layers').replaceChildren(
      ...symbolsLayer(layered),
      ...markerLayer(layered),
      ...frameLayer(layered),
      ...(layered.frame.after ? packetsLayer(layered) : lostLayer(layered)),
    );
  }
}

/** @param {Key} key */
const heading = (key) => element('h3', {}, ...rich(key));

/** @param {Said} said */
const paragraph = (said) => element('p', {}, ...nodesOf(said));

/** @param {Layered} layered */
function symbolsLayer({ frame }) {
  const canvas = element('canvas', { width: DOTS_WIDTH, height: DOTS_HEIGHT });
  const context = canvas.getContext('2d');
  const middle = (DOTS_HEIGHT - 1) / 2;
  context.fillStyle = colour('line');
  context.fillRect(0, middle, DOTS_WIDTH, 1);
  context.fillStyle = colour('accent');
  const { length } = frame.values;
  frame.values.forEach((value, place) => {
    context.fillRect(Math.floor((place * DOTS_WIDTH) / length), middle - value, 2, 2);
  });
  const { signs } = frame;
  const values = signs && { count: signs.wrong, share: ((100 * signs.wrong) / signs.compared).toFixed(1) };
  const said = values ? [paragraph({ key: 'symbols.wrong', values })] : [];
  const words = [text('symbols.title'), values ? text('symbols.wrong', values) : ''];
  canvas.setAttribute('role', 'img');
  canvas.setAttribute('aria-label', words.filter(Boolean).join('. '));
  return [heading('symbols.title'), paragraph({ key: 'symbols.text' }), canvas, ...said];
}

/** @param {Layered} layered */
function markerLayer({ frame, window }) {
  const said = [paragraph({ key: 'marker.text', values: { place: window.at, hits: frame.hits } })];
  if (window.isInverted) said.push(paragraph({ key: 'marker.inverted' }));
  return [heading('marker.title'), ...said];
}

/** @param {Layered} layered */
function frameLayer({ frame, window }) {
  const canvas = bytesCanvas(frame);
  const isAgain = window.lost < 0 && (!frame.after || window.corrected.some((it) => it > MOST_IN_PASS));
  /** @type {Said} */
  let outcome = { key: 'frame.restored', values: { words: window.corrected.join(', ') } };
  if (isAgain) outcome = { key: 'frame.again' };
  else if (window.lost >= 0) outcome = { key: 'frame.lost', values: { word: window.lost + 1 } };
  const byte = element('p', { className: 'small', textContent: '\u00a0' });
  canvas.onpointermove = (/** @type {PointerEvent} */ event) => {
    const wide = canvas.clientWidth / CELLS_WIDE;
    const place = Math.floor(event.offsetX / wide) + CELLS_WIDE * Math.floor(event.offsetY / wide);
    if (place >= 0 && place < frame.before.length) byte.textContent = wordsOfByte(frame, place);
  };
  return [heading('frame.title'), paragraph({ key: 'frame.text' }), canvas, byte, legend(), paragraph(outcome)];
}

/**
 * @param {Frame} frame
 * @param {number} place
 */
function wordsOfByte({ before, after }, place) {
  const hex = (/** @type {number} */ it) => it.toString(16).toUpperCase().padStart(2, '0');
  const isWrong = after && after[place] !== before[place];
  const right = hex((after ?? before)[place]);
  if (!isWrong) return text('frame.plain', { place, after: right });
  return text('frame.byte', { place, before: hex(before[place]), after: right });
}

/** @type {[Key, string][]} the parts of a block and their colours */
const PARTS_OF_BLOCK = [
  ['frame.head', 'good'], ['frame.data', 'accent'], ['frame.extra', 'line'], ['frame.wrong', 'bad'],
];

function legend() {
  const items = PARTS_OF_BLOCK.map(([key, name]) => {
    const box = element('i', {});
    box.style.background = `var(--${name})`;
    return element('li', {}, box, ' ', text(key));
  });
  return element('ul', { className: 'legend' }, ...items);
}

/**
 * The bytes of a block, a cell each.
 * @param {Frame} frame
 * @returns {HTMLCanvasElement}
 */
function bytesCanvas({ before, after }) {
  const lines = Math.ceil(before.length / CELLS_WIDE);
  const canvas = element('canvas', { width: CELL * CELLS_WIDE, height: CELL * lines });
  const context = canvas.getContext('2d');
  const colours = PARTS_OF_BLOCK.map(([, name]) => colour(name));
  before.forEach((byte, place) => {
    const part = place < HEAD_END ? 0 : place < DATA_END ? 1 : 2;
    const isWrong = after && after[place] !== byte;
    context.fillStyle = colours[isWrong ? 3 : part];
    context.globalAlpha = isWrong ? 1 : 0.35;
    context.fillRect(CELL * (place % CELLS_WIDE), CELL * Math.floor(place / CELLS_WIDE), CELL - 1, CELL - 1);
  });
  canvas.setAttribute('role', 'img');
  canvas.setAttribute('aria-label', text('frame.label'));
  return canvas;
}

/** @param {Layered} layered */
function packetsLayer({ frame, files, lines }) {
  const { channel, counter, packets, isFill } = frame;
  const said = [paragraph({ key: 'packets.text', values: { channel, counter } })];
  if (isFill) said.push(paragraph({ key: 'packets.fill' }));
  else if (!packets.length) said.push(paragraph({ key: 'packets.onward' }));
  else said.push(packetTable(packets));
  if (isFill) return [heading('packets.title'), ...said];
  const made = files.length ? files.map(paragraph) : [paragraph({ key: 'file.none' })];
  const drawn = lines.length ? [heading('lines.title'), ...lines.map(paragraph)] : [];
  return [heading('packets.title'), ...said, heading('file.title'), ...made, ...drawn];
}

/** @type {Key[]} */
const PACKET_COLUMNS = ['packets.start', 'packets.apid', 'packets.count', 'packets.part', 'packets.size'];

/** @param {import('./frames.mjs').Packet[]} packets */
function packetTable(packets) {
  const head = element('tr', {}, ...PACKET_COLUMNS.map((key) => element('th', { scope: 'col' }, ...rich(key))));
  const rows = packets.map(({ start, application, count, part, size, isIdle }) => {
    const what = isIdle ? text('packets.idle') : text(/** @type {Key} */ (`part.${part}`));
    const cells = [start, isIdle ? '' : application, isIdle ? '' : count, what, size];
    return element('tr', {}, ...cells.map((it) => element('td', { textContent: String(it) })));
  });
  const table = element('table', {}, element('thead', {}, head), element('tbody', {}, ...rows));
  return element('div', { className: 'wide' }, table);
}

/** @param {Layered} layered */
function lostLayer({ lost }) {
  return lost.length ? [heading('lost.title'), ...lost.map(paragraph)] : [];
}
