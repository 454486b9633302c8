// The part of the page for recordings of a radio's samples, I and Q: how one is read, what its signal looks like, and
// its symbols, which are received as any others.
import { at, element } from './elements.mjs';
import { DOWNLINKS, IQ_HEAD_BYTES, SAMPLE_FORMS, iqOf, likelyForm, rateInName } from './iq.mjs';
import { DRAWN_SIGNAL } from './modulate.mjs';
import { drawConstellation, drawSpectrum } from './scope.mjs';
import { rich, text, used } from './words.mjs';

const USUAL_RATE = 2_400_000; // of an RTL-SDR
const STATUS_REFUSED = 2; // of the demodulator: its settings make no sense

/**
 * @typedef {import('./demodulate.mjs').How} How
 * @typedef {import('./demodulate.mjs').RadioTask} RadioTask
 * @typedef {import('./demodulate.mjs').Seen} Seen
 * @typedef {import('./demodulate.mjs').Demodulated} Demodulated
 * @typedef {import('./iq.mjs').Iq} Iq
 * @typedef {import('./words.mjs').Key} Key
 * @typedef {object} Host what the page does for it
 * @property {Worker[]} workers
 * @property {number} began
 * @property {(name: string) => Worker} worker
 * @property {() => void} endWorkers
 * @property {() => void} clear
 * @property {() => void} startSample
 * @property {(file: Blob) => unknown} startRecording
 * @property {(said: import('./words.mjs').Said, isBad?: boolean) => void} say
 * @property {(isGoing: boolean) => void} going
 * @property {(progress: import('./messages.mjs').Progress) => void} hearProgress
 */

/** @param {number} value */
const inLanguage = (value) => value.toLocaleString(used());

/** @param {string} form */
const formWords = (form) => text(/** @type {Key} */ (`radio.${form}`));

/** @param {string} name */
const downlinkWords = (name) =>
  text(/** @type {Key} */ (`radio.${name}`), { symbols: inLanguage(DOWNLINKS[name].symbols) });

export class Radio {
  isDrawn = false; // the sample is wanted as a radio's signal
  /** @type {Blob | null} */
  file = null;
  /** @type {How | null} */
  how = null;

  /** @param {Host} page */
  constructor(page) {
    this.page = page;
    at('sample-radio').onclick = () => {
      page.startSample();
      this.isDrawn = true;
    };
    at('radio-start').onclick = () => this.again();
  }

  /** The choices of the fields, in the language. */
  fill() {
    const lists = {
      'radio-form': Object.keys(SAMPLE_FORMS).map((it) => [it, formWords(it)]),
      'radio-downlink': Object.keys(DOWNLINKS).map((it) => [it, downlinkWords(it)]),
    };
    for (const [id, list] of Object.entries(lists)) {
      const { value } = at(id);
      at(id).replaceChildren(...list.map(([it, words]) => element('option', { value: it, textContent: words })));
      at(id).value = value || list[0][0];
    }
  }

  clear() {
    this.isDrawn = false;
    for (const id of ['radio-fields', 'radio-section']) at(id).hidden = true;
  }

  /**
   * Starts with a file if its head or its name says that it has samples, and no setting says that it has symbols.
   * Answers whether it does.
   * @param {Blob} file
   * @returns {Promise<boolean>}
   */
  async takes(file) {
    if (!(file instanceof File) || at('form').value) return false;
    const head = new Uint8Array(await file.slice(0, IQ_HEAD_BYTES).arrayBuffer());
    const iq = iqOf(file.name, head, file.size);
    if (!iq) return false;
    this.show(file, iq);
    if (iq.rate) this.start(file, { ...iq, downlink: at('radio-downlink').value });
    else {
      this.page.going(false);
      this.page.say({ key: 'radio.ask' });
    }
    return true;
  }

  /**
   * Offers to demodulate a file whose symbols weren't found.
   * @param {Blob} file
   */
  async offer(file) {
    const head = new Uint8Array(await file.slice(0, IQ_HEAD_BYTES).arrayBuffer());
    const name = file instanceof File ? file.name : '';
    this.show(file, { form: likelyForm(name, head), rate: rateInName(name), start: 0, end: file.size });
  }

  /**
   * Shows the fields with what is known.
   * @param {Blob} file
   * @param {Iq} iq
   */
  show(file, iq) {
    this.file = file;
    this.how = { ...iq, downlink: at('radio-downlink').value };
    at('radio-rate').value = iq.rate || USUAL_RATE;
    at('radio-form').value = iq.form;
    at('radio-fields').hidden = false;
  }

  /** Starts with what the fields say. */
  again() {
    const { file, how, page } = this;
    const rate = Number(at('radio-rate').value);
    if (!file || !how || !(rate > 0)) return;
    const said = { rate, form: at('radio-form').value, downlink: at('radio-downlink').value };
    page.clear();
    this.show(file, { ...how, ...said });
    this.start(file, { ...how, ...said });
  }

  /**
   * A Worker with the demodulator and its task.
   * @param {RadioTask} task
   */
  work(task) {
    const worker = this.page.worker('lr_radio');
    this.page.workers = [worker];
    this.page.began = performance.now();
    worker.postMessage(task);
  }

  /**
   * @param {Blob} file
   * @param {How} how
   */
  start(file, how) {
    this.work({ kind: 'demodulate', file, how });
    const values = { form: formWords(how.form), rate: inLanguage(how.rate), downlink: downlinkWords(how.downlink) };
    this.page.say({ key: 'radio.going', values });
    at('radio-spectrum-words').textContent = text('radio.spectrum', { most: inLanguage(how.rate / 2e6) });
  }

  /**
   * Draws the signal of the sample's symbols.
   * @param {Uint8Array} symbols
   */
  draw(symbols) {
    this.page.say({ key: 'radio.drawing' });
    this.work({ kind: 'modulate', symbols });
  }

  /** @param {Blob} samples */
  drawn(samples) {
    this.page.endWorkers();
    const iq = { form: DRAWN_SIGNAL.form, rate: DRAWN_SIGNAL.rate, start: 0, end: samples.size };
    at('radio-downlink').value = DRAWN_SIGNAL.downlink;
    this.show(samples, iq);
    this.start(samples, { ...iq, downlink: DRAWN_SIGNAL.downlink });
  }

  /** @param {Seen} seen */
  seen({ read, size, points, spectrum, signal }) {
    this.page.hearProgress({ kind: 'progress', read, size });
    at('radio-section').hidden = false;
    drawConstellation(at('radio-constellation'), points);
    drawSpectrum(at('radio-spectrum'), spectrum);
    const { isLocked = false, ratio = 0, carrier = 0, clipped = 0 } = signal ?? {};
    const values = { ratio: inLanguage(Math.round(10 * ratio) / 10), carrier: inLanguage(Math.round(carrier)) };
    const words = [...rich(isLocked ? 'radio.locked' : 'radio.none', values)];
    if (clipped > 0.01) words.push(' ', ...rich('radio.clipped', { percent: Math.round(100 * clipped) }));
    at('radio-words').replaceChildren(...words);
  }

  /** @param {Demodulated} told */
  demodulated({ status, fault, symbols }) {
    const { page } = this;
    page.endWorkers();
    if (status === 0 && symbols.size) {
      page.startRecording(symbols);
      return;
    }
    page.going(false);
    if (status === 0) page.say({ key: 'radio.nothing' }, true);
    else if (status === STATUS_REFUSED) page.say({ key: 'radio.refused' }, true);
    else page.say({ key: 'state.early', values: { reason: fault || text('state.memory') } }, true);
  }
}
