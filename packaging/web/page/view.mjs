// What the page shows of a shelf: pictures, texts, and a table of files. Each list begins with a part, and more is
// shown when it is asked for.
import { PLAIN } from './colours.mjs';
import { at, button, element } from './elements.mjs';
import { seriesOf } from './names.mjs';
import { paint } from './paint.mjs';
import { counted, nodesOf, rich, text, wordsOf } from './words.mjs';

const MOST = { texts: 40, files: 200 }; // that are shown until more is asked for
const FEW = 2; // pictures that are shown large

/**
 * @typedef {(task: import('./messages.mjs').Task) => void} Ask
 * @typedef {import('./messages.mjs').FileTold} FileTold
 * @typedef {import('./messages.mjs').TextTold} TextTold
 * @typedef {import('./messages.mjs').PictureTold} PictureTold
 * @typedef {import('./messages.mjs').SentTold} SentTold
 * @typedef {import('./messages.mjs').About} About
 * @typedef {import('./paint.mjs').Seen} Seen
 * @typedef {import('./words.mjs').Said} Said
 * @typedef {object} Entry a picture in the list
 * @property {number | null} id none where it stands in another file
 * @property {string} name
 * @property {string} stamp
 * @property {string} series the same for pictures of one channel
 * @property {Seen | null} seen as the list shows it
 * @property {HTMLImageElement | null} image of one that is shown as it was sent
 * @property {import('./messages.mjs').Task} saves what is asked for to save it
 * @property {HTMLElement} figure
 */

export class View {
  /** @type {Map<string, Entry>} */
  entries = new Map();
  counts = { texts: 0, files: 0 };
  /** @type {Record<string, (() => HTMLElement)[]>} what is made when more is asked for */
  hidden = { texts: [], files: [] };
  /** @type {string[]} */
  urls = [];

  /**
   * @param {Ask} ask what the keeper is asked for
   * @param {((entry: Entry) => void) | null} open shows a picture at its full size
   */
  constructor(ask, open = null) {
    this.ask = ask;
    this.open = open;
  }

  clear() {
    this.urls.forEach((url) => URL.revokeObjectURL(url));
    Object.assign(this, new View(this.ask, this.open));
    for (const id of ['pictures-more', 'texts-more', 'files-more']) at(id).replaceChildren();
    for (const id of ['pictures', 'texts', 'files', 'quality']) {
      at(id).replaceChildren();
      at(`${id}-section`).hidden = true;
    }
  }

  /**
   * Puts what is made into a list, or makes it when more is asked for.
   * @param {'texts' | 'files'} list
   * @param {() => HTMLElement} make
   */
  put(list, make) {
    at(`${list}-section`).hidden = false;
    this.counts[list] += 1;
    if (this.counts[list] <= MOST[list]) {
      at(list).append(make());
      return;
    }
    this.hidden[list].push(make);
    if (this.hidden[list].length === 1) this.offerMore(list, () => this.showMore(list));
  }

  /** @param {'texts' | 'files'} list */
  showMore(list) {
    at(list).append(...this.hidden[list].splice(0, MOST[list]).map((make) => make()));
    if (this.hidden[list].length) this.offerMore(list, () => this.showMore(list));
  }

  /**
   * @param {'pictures' | 'texts' | 'files'} list
   * @param {() => void} show
   */
  offerMore(list, show) {
    const label = text(`${list}.more`);
    const more = button(label, label, () => {
      more.remove();
      show();
    });
    at(`${list}-more`).replaceChildren(more);
  }

  /** @param {FileTold} file */
  file(file) {
    this.put('files', () => this.rowOf(file));
  }

  /** @param {FileTold} file */
  rowOf({ number, name, stamp, size, corrected, type, note }) {
    const isDamaged = type === 'type.damaged';
    const what = [text(type), note ? wordsOf(note) : ''].filter(Boolean).join(': ');
    const numbers = isDamaged ? ['', ''] : [size, corrected];
    const cells = [number, name || text('file.name', { number }), stamp, what, ...numbers];
    const row = element('tr', {}, ...cells.map((it) => element('td', { textContent: String(it) })));
    if (isDamaged) row.className = 'bad';
    const ask = () => this.ask({ kind: 'saveFile', number, member: -1 });
    const saves = button(text('files.save'), text('files.saves', { number }), ask);
    row.append(element('td', {}, ...(isDamaged ? [] : [saves])));
    return row;
  }

  /** @param {TextTold} told */
  text(told) {
    this.put('texts', () => this.boxOf(told));
  }

  /** @param {TextTold} told */
  boxOf({ number, member, name, stamp, heading, text: inside, isCut }) {
    const title = heading ? `${heading} · ${name}` : name;
    const box = element('article', {}, element('h3', { textContent: title }));
    const note = [stamp, isCut ? text('text.cut') : ''].filter(Boolean).join(' · ');
    const pre = element('pre', { textContent: inside.replace(/^\n+/, ''), tabIndex: 0 });
    pre.setAttribute('aria-label', title);
    const ask = () => this.ask({ kind: 'saveFile', number, member });
    const saves = button(text('text.save'), text('text.saves', { title }), ask);
    box.append(element('p', { className: 'small', textContent: note }), pre, saves);
    return box;
  }

  /**
   * A picture that was drawn, or drawn again.
   * @param {PictureTold} picture
   */
  picture(picture) {
    const { id, name, stamp, seen, note } = picture;
    const saves = /** @type {const} */ ({ kind: 'save', id });
    const entry = this.entry(`${id}`, { id, name, stamp, seen, image: null, saves });
    if (seen) {
      const size = text('picture.size', { columns: seen.columns, lines: seen.lines });
      this.fill(entry, canvasOf(picture, seen), [size], picture);
      return;
    }
    const words = note && note !== 'picture.none' ? [text('picture.none'), ' ', text(note)] : [text('picture.none')];
    this.fill(entry, element('p', {}, ...words), [], picture);
  }

  /**
   * A picture that is shown as it was sent.
   * @param {SentTold} sent
   */
  sent(sent) {
    const { id, number, member, name, stamp } = sent;
    const url = URL.createObjectURL(new Blob([/** @type {BlobPart} */ (sent.bytes)], { type: sent.type }));
    this.urls.push(url);
    const alt = `${name}, ${text('picture.sent')}`;
    const image = element('img', { src: url, alt, loading: 'lazy', decoding: 'async' });
    /** @type {import('./messages.mjs').Task} */
    const saves = id === undefined ? { kind: 'saveFile', number, member } : { kind: 'save', id };
    const key = id === undefined ? `${number}.${member}` : `${id}`;
    const entry = this.entry(key, { id: id ?? null, name, stamp, seen: null, image, saves });
    image.onerror = () => {
      entry.image = null;
      this.fill(entry, element('p', { textContent: text('picture.unread') }), [], sent);
    };
    this.fill(entry, image, [text('picture.sent')], sent);
  }

  /**
   * The entry of a picture, which has a place in the list by its time, the newest first.
   * @param {string} key
   * @param {Omit<Entry, 'figure' | 'series'>} about
   * @returns {Entry}
   */
  entry(key, about) {
    const old = this.entries.get(key);
    if (old) return Object.assign(old, about);
    const figure = element('figure', {});
    const entry = { ...about, series: seriesOf(about.name), figure };
    const later = [...this.entries.values()].filter((it) => it.stamp <= entry.stamp);
    const before = later.reduce((/** @type {Entry | null} */ one, it) => (one && isBefore(one, it) ? one : it), null);
    at('pictures').insertBefore(figure, before?.figure ?? null);
    this.entries.set(key, entry);
    this.arrange();
    return entry;
  }

  /** @param {number} id of a picture that leaves the list */
  drop(id) {
    this.entries.get(`${id}`)?.figure.remove();
    this.entries.delete(`${id}`);
    this.arrange();
  }

  arrange() {
    at('pictures-section').hidden = this.entries.size === 0;
    at('pictures').classList.toggle('few', this.entries.size <= FEW);
  }

  /**
   * Puts a picture and the words about it into its figure.
   * @param {Entry} entry
   * @param {HTMLElement} shown
   * @param {string[]} words
   * @param {About} about
   */
  fill(entry, shown, words, about) {
    const { name, stamp, figure } = entry;
    const { open } = this;
    const isPicture = Boolean(entry.seen || entry.image);
    const caption = element('figcaption', {}, ...captionOf([name, stamp, ...words], about));
    const saves = text(entry.image ? 'files.save' : 'view.save');
    if (isPicture) caption.append(button(saves, text('view.saves', { name }), () => this.ask(entry.saves)));
    if (!isPicture || !open) {
      figure.replaceChildren(shown, caption);
      return;
    }
    const opens = element('button', { type: 'button', className: 'thumb', onclick: () => open(entry) }, shown);
    opens.setAttribute('aria-label', text('picture.open', { name: [name, stamp].filter(Boolean).join(', ') }));
    figure.replaceChildren(opens, caption);
  }
}

/**
 * Whether a picture stands before another one in the list.
 * @param {Entry} one
 * @param {Entry} other
 */
function isBefore(one, other) {
  return Boolean(one.figure.compareDocumentPosition(other.figure) & Node.DOCUMENT_POSITION_FOLLOWING);
}

/**
 * The words below a picture, and what it lacks.
 * @param {string[]} words
 * @param {About} about
 */
function captionOf(words, about) {
  const lacks = lacksOf(about).flatMap((it) => [' ', element('p', { className: 'lacks' }, ...nodesOf(it))]);
  return [element('p', { textContent: words.filter(Boolean).join(' · ') }), ...lacks];
}

/**
 * What a picture lacks.
 * @param {About} about
 * @returns {Said[]}
 */
function lacksOf({ missing, lacking, mended }) {
  const segments = lacking ? [counted('picture.segments', lacking, { numbers: missing })] : [];
  return mended ? [...segments, { key: 'picture.packets', values: mended }] : segments;
}

/**
 * A canvas with a picture on it.
 * @param {PictureTold} about
 * @param {Seen} seen
 * @returns {HTMLCanvasElement}
 */
function canvasOf(about, seen) {
  const [width, height] = [Math.ceil(seen.columns / seen.step), Math.ceil(seen.lines / seen.step)];
  const canvas = element('canvas', { width, height });
  const image = new ImageData(width, height);
  const words = new Uint32Array(image.data.buffer);
  paint({ width, height, words }, seen, { x: 0, y: 0, scale: 1 / seen.step }, PLAIN);
  canvas.getContext('2d').putImageData(image, 0, 0);
  canvas.setAttribute('role', 'img');
  const label = [about.name, about.stamp, ...lacksOf(about).map(wordsOf)].filter(Boolean).join(', ');
  canvas.setAttribute('aria-label', label);
  return canvas;
}
