// A picture at its full size: zoom, colours, light and contrast, lost lines, two of them compared, and several played.
import { PLAIN, TABLES } from './colours.mjs';
import { at, element, save } from './elements.mjs';
import { safe } from './names.mjs';
import { centred, fitting, hatch, paint, zoomed } from './paint.mjs';
import { counted, text, wordsOf } from './words.mjs';

const FULL = 65_536; // pixels of a side: all of them
const MOST_PLAYED = 1024; // pixels of a side, and pictures
const MOST_FRAMES = 48;
const FRAME_MILLISECONDS = 500;
const ZOOM = 1.5;
const [LEAST_SCALE, MOST_SCALE] = [1 / 64, 32];
const MOVE = 0.2; // of the screen by an arrow key
const TITLE_SHARE = 1 / 36; // of a picture's columns, for the title in a saved one
const LEAST_TITLE = 18;
/** @type {Record<string, [number, number]>} */
const ARROWS = { ArrowLeft: [-1, 0], ArrowRight: [1, 0], ArrowUp: [0, -1], ArrowDown: [0, 1] };

/**
 * @typedef {import('./paint.mjs').Seen} Seen
 * @typedef {import('./paint.mjs').Look} Look
 * @typedef {import('./view.mjs').Entry} Entry
 * @typedef {import('./messages.mjs').Looked} Looked
 */

/**
 * What is seen of a picture that the browser reads.
 * @param {HTMLImageElement} image
 * @returns {Promise<Seen>}
 */
async function seenOfImage(image) {
  const whole = element('img', { src: image.src });
  await whole.decode();
  const canvas = element('canvas', { width: whole.naturalWidth, height: whole.naturalHeight });
  const context = canvas.getContext('2d');
  context.drawImage(whole, 0, 0);
  const { width, height, data } = context.getImageData(0, 0, canvas.width, canvas.height);
  return { columns: width, lines: height, step: 1, bits: 8, lost: [], colours: new Uint32Array(data.buffer) };
}

/** The dialog with a picture. */
export class Viewer {
  /** @type {Entry | null} */
  entry = null;
  /** @type {Seen | null} */
  seen = null;
  /** @type {Seen | null} what it is compared with */
  other = null;
  /** @type {Look} */
  look = { x: 0, y: 0, scale: 1 };
  isFitting = true;
  /** @type {Map<string, (looked: Looked) => void>} who waits for a picture */
  waiting = new Map();
  /** @type {Map<number, { x: number, y: number }>} pointers that are down */
  pointers = new Map();
  timer = 0;
  isDrawing = false;

  /**
   * @param {import('./view.mjs').Ask} ask
   * @param {() => Entry[]} entries
   */
  constructor(ask, entries) {
    this.ask = ask;
    this.entries = entries;
    this.dialog = at('viewer');
    this.canvas = at('view-canvas');
    this.listen();
  }

  /** Hears buttons, sliders, keys and pointers. */
  listen() {
    const { canvas, dialog } = this;
    const clicks = {
      'view-close': () => dialog.close(),
      'view-larger': () => this.zoom(ZOOM),
      'view-smaller': () => this.zoom(1 / ZOOM),
      'view-fit': () => this.fit(),
      'view-full': () => this.zoom(1 / this.look.scale),
      'view-reset': () => this.reset(),
      'view-play': () => (this.timer ? this.pause() : this.play()),
      'view-save': () => this.save(),
    };
    for (const [id, click] of Object.entries(clicks)) at(id).onclick = click;
    for (const id of ['colours', 'light', 'contrast', 'lost', 'wipe']) at(`view-${id}`).oninput = () => this.draw();
    at('view-compare').onchange = () => this.compare();
    dialog.onclose = () => this.clear();
    dialog.onkeydown = (/** @type {KeyboardEvent} */ event) => this.key(event);
    canvas.onwheel = (/** @type {WheelEvent} */ event) => {
      event.preventDefault();
      this.zoom(event.deltaY < 0 ? ZOOM ** 0.5 : ZOOM ** -0.5, event);
    };
    canvas.onpointerdown = (/** @type {PointerEvent} */ event) => {
      canvas.setPointerCapture(event.pointerId);
      this.pointers.set(event.pointerId, { x: event.offsetX, y: event.offsetY });
    };
    canvas.onpointerup = canvas.onpointercancel = (/** @type {PointerEvent} */ event) => {
      this.pointers.delete(event.pointerId);
    };
    canvas.onpointermove = (/** @type {PointerEvent} */ event) => this.move(event);
    new ResizeObserver(() => this.draw()).observe(canvas);
  }

  /** A pixel of the page in those of the screen. */
  get pixel() {
    return 1 / Math.min(2, devicePixelRatio);
  }

  // ---- pictures

  /** @param {Entry} entry */
  async open(entry) {
    this.clear();
    this.entry = entry;
    this.name(entry);
    this.fillLists(entry);
    at('view-more').open = matchMedia('(min-width: 40rem)').matches;
    this.dialog.showModal();
    this.canvas.focus();
    this.isFitting = true;
    this.draw();
    await this.load(entry, FULL).then((seen) => {
      if (this.entry === entry) this.show(seen);
    });
  }

  /**
   * What is seen of a picture, or null where it can't be had.
   * @param {Entry} entry
   * @param {number} most
   * @returns {Promise<Seen | null>}
   */
  async load({ id, image }, most) {
    if (image) return seenOfImage(image).catch(() => null);
    if (id === null) return null;
    const told = new Promise((/** @type {(looked: Looked) => void} */ go) => this.waiting.set(`${id} ${most}`, go));
    this.ask({ kind: 'look', id, most });
    return (await told).seen;
  }

  /** @param {Looked} looked */
  looked(looked) {
    const key = `${looked.id} ${looked.most}`;
    this.waiting.get(key)?.(looked);
    this.waiting.delete(key);
  }

  /** @param {Seen | null} seen */
  show(seen) {
    this.seen = seen;
    at('view-pixel').textContent = text(seen ? 'view.help' : 'picture.none');
    at('view-lost').disabled = !seen?.lost.length;
    this.draw();
  }

  /** @param {Entry} entry */
  name({ name, stamp }) {
    const label = [name, stamp].filter(Boolean).join(' · ');
    at('viewer-title').textContent = label;
    this.canvas.setAttribute('aria-label', label);
  }

  clear() {
    this.pause();
    Object.assign(this, { entry: null, seen: null, other: null });
    at('view-pixel').textContent = text('view.loading');
    at('view-wipe-box').hidden = true;
  }

  /**
   * The tables of colours, and the pictures that this one can be compared with.
   * @param {Entry} entry
   */
  fillLists(entry) {
    const tables = TABLES.map((value) => {
      const key = /** @type {import('./words.mjs').Key} */ (`colours.${value}`);
      return element('option', { value, textContent: text(key) });
    });
    at('view-colours').replaceChildren(...tables);
    this.reset();
    const others = this.comparable(entry);
    const nothing = element('option', { value: '', textContent: text('view.nothing') });
    const options = others.map((it, place) =>
      element('option', { value: String(place), textContent: [it.stamp, it.name].filter(Boolean).join(' · ') }),
    );
    at('view-compare').replaceChildren(nothing, ...options);
    at('view-compare-box').hidden = !others.length;
    at('view-play').hidden = this.series(entry).length < 2;
    this.pause();
  }

  /**
   * The pictures of the same size, those of the same channel first.
   * @param {Entry} entry
   * @returns {Entry[]}
   */
  comparable(entry) {
    const { seen } = entry;
    const isAlike = (/** @type {Entry} */ it) =>
      it !== entry && it.seen && seen && it.seen.columns === seen.columns && it.seen.lines === seen.lines;
    const isOther = (/** @type {Entry} */ it) => Number(it.series !== entry.series);
    return this.entries().filter(isAlike).sort((one, other) => isOther(one) - isOther(other));
  }

  /**
   * The pictures of its channel, from the oldest to the newest.
   * @param {Entry} entry
   * @returns {Entry[]}
   */
  series(entry) {
    const all = [entry, ...this.comparable(entry)].filter((it) => it.series === entry.series && it.id !== null);
    const rank = (/** @type {Entry} */ it) => `${it.stamp} ${String(it.id).padStart(9, '0')}`;
    return all.sort((one, other) => (rank(one) < rank(other) ? -1 : 1)).slice(-MOST_FRAMES);
  }

  async compare() {
    const { entry } = this;
    const { value } = at('view-compare');
    const chosen = entry && value !== '' ? this.comparable(entry)[Number(value)] : null;
    at('view-wipe-box').hidden = !chosen;
    this.other = null;
    this.draw();
    if (!chosen) return;
    const seen = await this.load(chosen, FULL);
    if (this.entry === entry && at('view-compare').value === value) this.other = seen;
    this.draw();
  }

  // ---- several played

  async play() {
    const { entry } = this;
    if (!entry) return;
    const all = this.series(entry);
    this.timer = -1;
    at('view-play').textContent = text('view.pause');
    /** @type {(Seen | null)[]} */
    const frames = [];
    for (const it of all) {
      frames.push(await this.load(it, MOST_PLAYED));
      if (!this.timer || this.entry !== entry) return;
    }
    let place = 0;
    const { seen: whole } = this;
    this.timer = setInterval(() => {
      this.name(all[place]);
      this.seen = frames[place] ?? whole;
      this.draw();
      place = (place + 1) % frames.length;
    }, FRAME_MILLISECONDS);
    this.stopped = () => {
      this.seen = whole;
      this.name(entry);
      this.draw();
    };
  }

  stopped = () => {};

  pause() {
    if (this.timer > 0) clearInterval(this.timer);
    this.timer = 0;
    const count = this.entry ? this.series(this.entry).length : 0;
    at('view-play').textContent = wordsOf(counted('view.play', count));
    this.stopped();
    this.stopped = () => {};
  }

  // ---- what is seen of it

  /** @returns {import('./colours.mjs').Tint} */
  get tint() {
    const number = (/** @type {string} */ id) => Number(at(`view-${id}`).value);
    return { table: at('view-colours').value, light: number('light'), contrast: number('contrast') };
  }

  reset() {
    at('view-colours').value = PLAIN.table;
    at('view-light').value = PLAIN.light;
    at('view-contrast').value = PLAIN.contrast;
    this.draw();
  }

  fit() {
    this.isFitting = true;
    this.draw();
  }

  /**
   * Zooms around a place, or else around the middle.
   * @param {number} factor
   * @param {{offsetX: number, offsetY: number}} [place]
   */
  zoom(factor, place) {
    const { canvas, look, pixel } = this;
    this.isFitting = false;
    const scale = Math.max(LEAST_SCALE, Math.min(MOST_SCALE, look.scale * factor));
    const [x, y] = place ? [place.offsetX / pixel, place.offsetY / pixel] : [canvas.width / 2, canvas.height / 2];
    this.look = zoomed(look, scale, x, y);
    this.draw();
  }

  /** @param {KeyboardEvent} event */
  key(event) {
    if (event.target !== this.canvas) return;
    const { key } = event;
    const arrow = ARROWS[key];
    if (key === '+' || key === '=') this.zoom(ZOOM);
    else if (key === '-') this.zoom(1 / ZOOM);
    else if (key === '0') this.fit();
    else if (arrow) this.shift(arrow[0] * MOVE * this.canvas.width, arrow[1] * MOVE * this.canvas.height);
    else return;
    event.preventDefault();
  }

  /** @param {number} right @param {number} down pixels of the screen */
  shift(right, down) {
    const { x, y, scale } = this.look;
    this.look = { x: x + right / scale, y: y + down / scale, scale };
    this.draw();
  }

  /** @param {PointerEvent} event */
  move(event) {
    const before = this.pointers.get(event.pointerId);
    const now = { x: event.offsetX, y: event.offsetY };
    if (!before) {
      this.tellPixel(event);
      return;
    }
    const [still] = [...this.pointers].filter(([id]) => id !== event.pointerId).map(([, it]) => it);
    if (still) {
      const far = (/** @type {{x: number, y: number}} */ it) => Math.hypot(it.x - still.x, it.y - still.y);
      this.zoom(far(now) / Math.max(1, far(before)), { offsetX: still.x, offsetY: still.y });
    } else this.shift((before.x - now.x) / this.pixel, (before.y - now.y) / this.pixel);
    this.pointers.set(event.pointerId, now);
  }

  /**
   * Tells the value below the pointer.
   * @param {{offsetX: number, offsetY: number}} place
   */
  tellPixel({ offsetX, offsetY }) {
    const { look, pixel, seen } = this;
    if (!seen?.pixels) return;
    const column = Math.floor(look.x + offsetX / pixel / look.scale);
    const line = Math.floor(look.y + offsetY / pixel / look.scale);
    if (column < 0 || line < 0 || column >= seen.columns || line >= seen.lines) return;
    const place = Math.floor(line / seen.step) * Math.ceil(seen.columns / seen.step) + Math.floor(column / seen.step);
    const { pixels } = seen;
    const value = seen.bits <= 8 ? pixels[place] : pixels[2 * place] * 256 + pixels[2 * place + 1];
    const values = { column: column + 1, line: line + 1, value, most: 2 ** seen.bits - 1 };
    at('view-pixel').textContent = text('view.pixel', values);
  }

  /** Draws at the next moment at which the screen is drawn. */
  draw() {
    if (this.isDrawing || !this.dialog.open) return;
    this.isDrawing = true;
    requestAnimationFrame(() => {
      this.isDrawing = false;
      this.drawNow();
    });
  }

  drawNow() {
    const { canvas, seen, other, pixel } = this;
    const [width, height] = [canvas.clientWidth, canvas.clientHeight].map((it) => Math.max(1, Math.round(it / pixel)));
    if (canvas.width !== width || canvas.height !== height) Object.assign(canvas, { width, height });
    const context = canvas.getContext('2d');
    if (!seen) {
      context.clearRect(0, 0, width, height);
      return;
    }
    this.look = this.isFitting ? fitting(canvas, seen) : centred(canvas, seen, this.look);
    const image = new ImageData(width, height);
    const screen = { width, height, words: new Uint32Array(image.data.buffer) };
    const border = other ? Math.round((width * Number(at('view-wipe').value)) / 100) : width;
    this.paint(screen, seen, 0, border);
    if (other) this.paint(screen, other, border, width);
    context.putImageData(image, 0, 0);
    if (other) {
      context.fillStyle = '#fff';
      context.fillRect(border - 1, 0, 2, height);
    }
  }

  /**
   * @param {import('./paint.mjs').Screen} screen
   * @param {Seen} seen
   * @param {number} from
   * @param {number} to
   */
  paint(screen, seen, from, to) {
    paint(screen, seen, this.look, this.tint, from, to);
    if (at('view-lost').checked) hatch(screen, seen, this.look, from, to);
  }

  // ---- saving

  /** Saves the picture as it was received, or as it is shown, or with its title. */
  async save() {
    const { entry, seen } = this;
    const [isTitled, isShown] = ['view-titled', 'view-shown'].map((id) => at(id).checked);
    if (!entry || !seen) return;
    if (!isTitled && !isShown) {
      this.ask(entry.saves);
      return;
    }
    const canvas = this.whole(seen, isShown, isTitled ? [entry.name, entry.stamp].filter(Boolean) : []);
    const blob = await new Promise((go) => canvas.toBlob(go, 'image/png'));
    const stem = [entry.stamp, entry.name].filter(Boolean).map(safe).join('-');
    if (blob) save(`${stem}${isShown ? '-shown' : ''}${isTitled ? '-titled' : ''}.png`, [blob], 'image/png');
  }

  /**
   * The whole picture on a canvas, with a title below it.
   * @param {Seen} seen
   * @param {boolean} isShown in the colours that are chosen
   * @param {string[]} title
   * @returns {HTMLCanvasElement}
   */
  whole(seen, isShown, title) {
    const { columns: width, lines: height } = seen;
    const high = title.length ? Math.max(LEAST_TITLE, Math.round(width * TITLE_SHARE)) : 0;
    const canvas = element('canvas', { width, height: height + high });
    const context = canvas.getContext('2d');
    const image = new ImageData(width, height);
    const screen = { width, height, words: new Uint32Array(image.data.buffer) };
    const look = { x: 0, y: 0, scale: 1 };
    paint(screen, seen, look, isShown ? this.tint : PLAIN);
    if (isShown && at('view-lost').checked) hatch(screen, seen, look);
    context.putImageData(image, 0, 0);
    Object.assign(context, { fillStyle: '#000' });
    context.fillRect(0, height, width, high);
    const font = `${Math.round(high * 0.6)}px sans-serif`;
    Object.assign(context, { fillStyle: '#fff', font, textBaseline: 'middle' });
    context.fillText(title.join(' · '), high / 3, height + high / 2, width - (2 * high) / 3);
    return canvas;
  }
}
