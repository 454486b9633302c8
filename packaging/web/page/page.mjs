// The page: a recording or a shelf comes in, and what is received is shown as it comes.
import { at, element, save } from './elements.mjs';
import { curveOf, secondsOf } from './curve.mjs';
import { CODES, FORMS, FRAME_SYMBOLS } from './forms.mjs';
import { isMissionFile } from './given.mjs';
import { Radio } from './radio.mjs';
import { HEADER_BYTES, isShelf } from './shelf.mjs';
import { isZip } from './zip.mjs';
import { Story } from './story.mjs';
import { View } from './view.mjs';
import { Viewer } from './viewer.mjs';
import { LANGUAGES, TERMS, counted, fillPage, languageOf, nodesOf, rich, text, use, used, wordsOf } from './words.mjs';

const STARTERS = ['sample', 'sample-radio', 'radio-start']; // buttons
const SAMPLE_WRONG = 8; // wrong bytes in each word of the sample
const SAMPLE_FRAMES = 470;
const SAMPLE_SEED = 1957;
const FILLERS_OF_IMAGE = 64; // packets of an image that others may stand in for
const KIND_BYTES = 64; // of a file, by which its kind is told
const NOTHING_CHOSEN = { form: '', code: null };
const [TORN, NO_MEMORY, DAMAGED] = [6, 9, 12]; // statuses
const NOTHING_RAN = 256; // the answer of a call that got no memory before its command ran

/**
 * @typedef {import('./messages.mjs').Task} Task
 * @typedef {import('./messages.mjs').Told | import('./demodulate.mjs').RadioTold} Told
 * @typedef {import('./forms.mjs').Found} Found
 * @typedef {import('./forms.mjs').Code} Code
 * @typedef {import('./words.mjs').Key} Key
 * @typedef {import('./words.mjs').Said} Said
 * @typedef {{modules: Record<string, string>, worker: string, sample: string, files: number, version: string}} Lent
 * @typedef {{[Kind in Told['kind']]?: (message: Extract<Told, {kind: Kind}>) => void}} Heard
 */

/** What the file has besides the page: the modules, the Worker's text, and the sample. @type {Lent} */
const LENT = JSON.parse(at('lent').textContent);

/** @param {string} inside */
const bytesOfText = (inside) => Uint8Array.from(atob(inside), (it) => it.charCodeAt(0));

const workerUrl = URL.createObjectURL(new Blob([LENT.worker], { type: 'text/javascript' }));

class Page {
  constructor() {
    /** @type {Record<string, WebAssembly.Module>} */
    this.modules = {};
    /** @type {Worker[]} those that work on the recording */
    this.workers = [];
    /** @type {Worker} */
    this.keeper = /** @type {any} */ (null);
    /** @type {import('./view.mjs').Ask} */
    const ask = (task) => this.ask(task);
    /** @type {View} */
    this.view = new View(ask, (entry) => this.viewer.open(entry));
    this.story = new Story(ask);
    /** @type {Viewer} */
    this.viewer = new Viewer(ask, () => [...this.view.entries.values()]);
    /** @type {Blob} */
    this.file = new Blob();
    /** @type {Found | null} how the recording is read */
    this.found = null;
    this.files = 0;
    this.isSample = false;
    this.isReceived = false; // files come from a recording, and not from the sample or a file that has them
    this.isUnsaved = false; // something was received that can't be had again, and wasn't saved
    this.began = 0;
    this.radio = new Radio(this);
  }

  // ---- words on how it goes

  /**
   * @param {Said} said
   * @param {boolean} [isBad]
   */
  say(said, isBad = false) {
    at('progress-section').hidden = false;
    at('state').replaceChildren(...nodesOf(said));
    at('state').className = isBad ? 'bad' : '';
  }

  /** @param {boolean} isGoing */
  going(isGoing) {
    const { activeElement } = document;
    at('going').hidden = !isGoing;
    for (const id of [...STARTERS, 'file']) at(id).disabled = isGoing;
    at('progress').removeAttribute('value');
    at('time').textContent = '';
    // (focus would fall to the page where its button goes)
    if (activeElement && [...STARTERS, 'stop'].includes(activeElement.id)) at(isGoing ? 'stop' : 'state').focus();
  }

  // ---- workers

  async load() {
    const names = Object.keys(LENT.modules);
    const compiled = names.map((name) => WebAssembly.compile(bytesOfText(LENT.modules[name])));
    const modules = await Promise.all(compiled);
    this.modules = Object.fromEntries(names.map((name, place) => [name, modules[place]]));
    this.keeper = this.worker('lr_run');
    this.going(false);
  }

  /**
   * A Worker with a module.
   * @param {string} name
   * @returns {Worker}
   */
  worker(name) {
    const worker = new Worker(workerUrl);
    worker.onmessage = ({ data }) => this.hear(data);
    worker.onerror = (event) => this.hear({ kind: 'failed', text: event.message });
    worker.postMessage({ kind: 'load', module: this.modules[name], live: this.modules.lr_live });
    return worker;
  }

  /** @param {Task} task @param {Transferable[]} [given] */
  ask(task, given = []) {
    this.keeper.postMessage(task, given);
  }

  /** Ends what works on a recording. */
  endWorkers() {
    this.workers.forEach((it) => it.terminate());
    this.workers = [];
  }

  // ---- what is done

  /** A recording of the sample, which the receiver itself sends. */
  startSample() {
    this.clear();
    this.isSample = true;
    this.say({ key: 'state.sample' });
    const worse = { noise: Number(at('noise').value), lost: Number(at('lost').value), seed: SAMPLE_SEED };
    this.ask({ kind: 'transmit', shelf: bytesOfText(LENT.sample), files: LENT.files, wrong: SAMPLE_WRONG, worse });
  }

  clear() {
    this.endWorkers();
    this.radio.clear();
    this.view.clear();
    this.story.clear();
    this.files = 0;
    Object.assign(this, { isSample: false, isReceived: false, isUnsaved: false });
    at('tries').replaceChildren();
    for (const id of ['tries-box', 'save-recording', 'top']) at(id).hidden = true;
    for (const id of ['save-shelf', 'save-note']) at(id).hidden = false;
    delete document.body.dataset.settled;
    this.going(true);
  }

  /**
   * Takes files that were chosen or dropped: a shelf, a recording, or LRIT files and zips of them.
   * @param {File[]} files
   */
  async start(files) {
    const [file] = files;
    if (!file) return undefined;
    this.clear();
    const front = new Uint8Array(await file.slice(0, KIND_BYTES).arrayBuffer());
    if (files.length > 1 || isMissionFile(front) || isZip(front)) return this.startFiles(files);
    if (!isShelf(front.subarray(0, HEADER_BYTES))) return this.startRecording(file);
    this.say({ key: 'state.shelf' });
    return this.ask({ kind: 'open', file });
  }

  /** @param {File[]} files */
  startFiles(files) {
    this.say({ key: 'state.files' });
    // (they have no shelf, since it isn't known in which packets they came)
    for (const id of ['save-shelf', 'save-note']) at(id).hidden = true;
    this.ask({ kind: 'give', files });
  }

  /** @param {Blob} file */
  async startRecording(file) {
    if (await this.radio.takes(file)) return;
    this.file = file;
    this.say({ key: 'state.finding' });
    this.ask({ kind: 'which', file, chosen: this.isSample ? NOTHING_CHOSEN : chosen() });
  }

  /** @param {Found} how */
  receive(how) {
    const found = { ...how, mend: at('mend').checked ? FILLERS_OF_IMAGE : 0 };
    this.found = found;
    this.isReceived = !this.isSample;
    const { port1, port2 } = new MessageChannel();
    this.ask({ kind: 'keep', port: port1, file: this.file, found }, [port1]);
    const receiver = this.worker('lr_live');
    this.workers = [receiver];
    this.began = performance.now();
    receiver.postMessage({ kind: 'receive', file: this.file, found, port: port2 }, [port2]);
    const judge = this.worker('lr_live');
    this.workers.push(judge);
    judge.postMessage({ kind: 'judge', file: this.file, found });
    this.say({ key: 'state.receiving', values: { how: wordsFor(found.form, found.code) } });
  }

  stop() {
    this.endWorkers();
    this.ask({ kind: 'end' });
    this.say({ key: 'state.stopped' });
    this.going(false);
  }

  // ---- what is heard

  /** @param {Told} message */
  hear(message) {
    const heard = /** @type {((message: Told) => void) | undefined} */ (this.heard[message.kind]);
    heard?.(message);
  }

  /** @type {Heard} */
  heard = {
    failed: ({ text: reason }) => {
      this.endWorkers();
      this.going(false);
      this.say({ key: 'state.failed', values: { reason } }, true);
    },
    trouble: ({ text: reason }) => this.say({ key: 'state.trouble', values: { reason } }, true),
    sample: ({ bytes }) =>
      this.radio.isDrawn ? this.radio.draw(bytes) : this.startRecording(new Blob([/** @type {BlobPart} */ (bytes)])),
    modulated: ({ samples }) => this.radio.drawn(samples),
    seen: (seen) => this.radio.seen(seen),
    demodulated: (told) => this.radio.demodulated(told),
    tried: (told) => this.hearTried(told),
    trying: ({ form, code }) => {
      at('time').textContent = text('state.trying', { how: wordsFor(form, code) });
    },
    found: (answer) => this.hearFound(answer),
    progress: (progress) => this.hearProgress(progress),
    received: (received) => this.hearReceived(received),
    opened: (opened) => this.hearOpened(opened),
    given: (given) => this.hearGiven(given),
    file: (file) => {
      this.files += 1;
      this.isUnsaved ||= this.isReceived;
      this.view.file(file);
      this.list();
    },
    picture: (picture) => this.show(() => this.view.picture(picture)),
    sent: (sent) => this.show(() => this.view.sent(sent)),
    dropped: ({ id }) => this.show(() => this.view.drop(id)),
    looked: (looked) => this.viewer.looked(looked),
    text: (told) => this.show(() => this.view.text(told)),
    windows: ({ windows }) => {
      this.story.take(windows);
      this.ask({ kind: 'windows', windows });
    },
    layers: (told) => this.story.told(told),
    quality: (quality) => {
      at('quality').dataset.isWhole = String(quality.isWhole ?? false);
      at('quality-section').hidden = false;
      const seconds = secondsOf(quality.frames * FRAME_SYMBOLS, this.found?.code ?? null);
      const choose = (/** @type {number} */ from, /** @type {number} */ to) => this.story.showAt(from, to);
      at('quality').replaceChildren(...curveOf(quality, choose, seconds));
      this.list();
    },
    settled: ({ files, waiting }) => {
      if (waiting) this.view.offerMore('pictures', () => this.ask({ kind: 'more' }));
      document.body.dataset.settled = String(files);
    },
    saved: ({ name, bytes, type }) => {
      if (name && bytes) save(name, [/** @type {BlobPart} */ (bytes)], type);
    },
  };

  /** @param {() => void} put what changes a list */
  show(put) {
    put();
    this.list();
  }

  /** The contents at the top: links to what there is. */
  list() {
    const { texts } = this.view.counts;
    /** @type {[string, Said][]} */
    const all = [
      ['pictures', { key: 'contents.pictures', values: { count: this.view.entries.size } }],
      ['texts', { key: 'contents.texts', values: { count: texts } }],
      ['quality', { key: 'contents.quality' }],
      ['layers', { key: 'layers.title' }],
      ['files', { key: 'contents.files', values: { count: this.files } }],
    ];
    const there = all.filter(([id]) => !at(`${id}-section`).hidden);
    const links = there.map(([id, said]) => element('a', { href: `#${id}-section`, textContent: wordsOf(said) }));
    at('contents').replaceChildren(...links.map((it) => element('li', {}, it)));
    at('top').hidden = !this.files;
  }

  /**
   * Saves all, after which nothing is lost when the page is closed.
   * @param {'saveAll' | 'saveShelf'} kind
   */
  saveWhole(kind) {
    this.isUnsaved = false;
    this.ask({ kind });
  }

  /** @param {import('./messages.mjs').Tried} told */
  hearTried({ form, start, code, frames, restored }) {
    const how = wordsFor(form, code);
    const values = { how: start ? text('tries.middle', { how }) : how, restored, frames };
    const words = text(frames ? 'tries.restored' : 'tries.nothing', values);
    at('tries').append(element('li', { textContent: words }));
    at('tries-box').hidden = false;
  }

  /** @param {import('./messages.mjs').Answered} answer */
  hearFound({ found, isEither, reason }) {
    if (isEither) at('tries').append(element('li', { textContent: text('tries.both') }));
    if (found) return this.receive(found);
    this.going(false);
    if (reason?.key === 'radio') this.radio.offer(this.file);
    return this.say(saidOfReason(/** @type {Reason} */ (reason)), true);
  }

  /** @param {import('./messages.mjs').Progress} progress */
  hearProgress({ read, size }) {
    const bar = at('progress');
    bar.max = size;
    bar.value = read;
    const seconds = (performance.now() - this.began) / 1000;
    const left = Math.ceil(((size - read) * seconds) / Math.max(1, read));
    const values = { share: Math.floor((100 * read) / Math.max(1, size)), files: this.files };
    if (seconds < 1) at('time').textContent = text('time.none', values);
    else if (left > 90) at('time').textContent = text('time.minutes', { ...values, count: Math.round(left / 60) });
    else at('time').textContent = text('time.seconds', { ...values, count: left });
  }

  /** @param {import('./messages.mjs').Received} received */
  hearReceived({ status, last, err, fault, memory }) {
    document.body.dataset.memory = String(memory);
    const reason = isOfMemory(status) ? text('state.memory') : [err, fault].filter(Boolean).join('; ');
    if (status !== 0) this.say({ key: 'state.early', values: { reason } }, true);
    else this.say(...summaryOf(last, this.found?.code ?? null));
    this.going(false);
    if (this.isSample) at('save-recording').hidden = false;
  }

  /** @param {import('./messages.mjs').Given} given */
  hearGiven({ files, left }) {
    this.going(false);
    const said = files ? [counted('opened.files', files)] : [{ key: /** @type {Key} */ ('opened.none') }];
    if (left && files) said.push(counted('opened.left', left));
    this.say(said[0], !files);
    if (said[1]) at('state').append(' ', ...nodesOf(said[1]));
  }

  /** @param {import('./messages.mjs').Opened} opened */
  hearOpened({ status, err, bad, files }) {
    this.going(false);
    const reason = isOfMemory(status) ? text('state.memory') : err;
    if (status === TORN && files) this.say(counted('opened.torn', files), true);
    else if (status !== 0 && status !== DAMAGED) this.say({ key: 'opened.failed', values: { reason } }, true);
    else if (bad) this.say(counted('opened.bad', bad), true);
    else this.say({ key: files ? 'opened.whole' : 'opened.empty' });
  }
}

/** @typedef {import('./reasons.mjs').Reason} Reason */

/** @param {number} status */
const isOfMemory = (status) => status === NO_MEMORY || status === NOTHING_RAN;

/**
 * What the settings say.
 * @returns {import('./search.mjs').Chosen}
 */
function chosen() {
  const [line, g2] = at('code').value.split(' ');
  return { form: at('form').value, code: g2 ? { line, g2 } : null };
}

/**
 * Why nothing was found. Where a setting may be to blame, that is said.
 * @param {Reason} reason
 * @returns {Said}
 */
function saidOfReason({ key, isSure, heard }) {
  const { form, code } = chosen();
  if (!isSure && !heard && key !== 'short' && (form || code)) return { key: 'state.nothing' };
  const said = /** @type {Key} */ (`reason.${key}`);
  return heard ? { key: said, values: { how: wordsFor(heard.form, heard.code), frames: heard.frames } } : { key: said };
}

/**
 * How a recording is read, in words.
 * @param {string} form
 * @param {Code | null} code
 * @returns {string}
 */
function wordsFor(form, code) {
  const words = text(/** @type {Key} */ (`form.${form}`));
  return code ? `${words}, ${text('code', code)}` : words;
}

/**
 * The last line of `receive` in words, and whether it is bad news.
 * @param {string} line as `symbols 7700480 frames 470 restored 470 lost 0 packets 54 files 6 left 0 stop end`
 * @param {Code | null} code none where frames were read
 * @returns {[Said, boolean]}
 */
function summaryOf(line, code) {
  const words = line.split(' ');
  /** @param {string} name */
  const after = (name) => Number(words[words.indexOf(name) + 1]);
  const [frames, restored] = [after('frames'), after('restored')];
  if (!restored || (!code && at('form').value && !after('files'))) return [{ key: 'state.nothing' }, true];
  const values = { frames, restored, lost: frames - restored, files: wordsOf(counted('files', after('files'))) };
  if (!code) return [{ key: 'state.done.frames', values }, false];
  return [{ key: frames === restored ? 'state.done.all' : 'state.done.some', values }, false];
}

/** The choices of the settings, and the glossary, in the language. */
function fillLists() {
  const find = () => element('option', { value: '', textContent: text('settings.find') });
  const codes = CODES.map(({ line, g2 }) => {
    const key = line === 'nrz-m' && g2 === 'plain' ? 'code.goes' : 'code';
    return element('option', { value: `${line} ${g2}`, textContent: text(key, { line, g2 }) });
  });
  const forms = Object.keys(FORMS).map((it) => element('option', { value: it, textContent: wordsFor(it, null) }));
  for (const [id, options] of Object.entries({ code: codes, form: forms })) {
    const { value } = at(id);
    at(id).replaceChildren(find(), ...options);
    at(id).value = value;
  }
  at('glossary').replaceChildren(
    ...TERMS.flatMap((it) => [
      element('dt', { textContent: text(`term.${it}`) }),
      element('dd', { textContent: text(`about.${it}`) }),
    ]),
  );
  at('build').textContent = text('about.build', { version: LENT.version });
}

/** How much worse the sample is made. */
function tellWorse() {
  at('noise-label').textContent = text('sample.noise', { percent: at('noise').value });
  at('lost-label').replaceChildren(...rich('sample.lost', { count: at('lost').value, frames: SAMPLE_FRAMES }));
}

/** @param {string} code */
function speak(code) {
  use(code);
  fillPage();
  fillLists();
  tellWorse();
  page.radio.fill();
}

const page = new Page();
for (const [value, { name }] of Object.entries(LANGUAGES)) {
  at('language').append(element('option', { value, textContent: name, lang: value }));
}
speak(languageOf(navigator.languages));
at('language').value = used();
at('language').onchange = () => speak(at('language').value);
at('sample').onclick = () => page.startSample();
at('file').onchange = () => {
  const files = [...at('file').files];
  at('file').value = '';
  page.start(files);
};
at('stop').onclick = () => page.stop();
at('save-all').onclick = () => page.saveWhole('saveAll');
at('save-shelf').onclick = () => page.saveWhole('saveShelf');
for (const id of ['noise', 'lost']) at(id).oninput = tellWorse;
at('save-recording').onclick = () => save('sample.soft', [page.file], 'application/octet-stream');
const drop = at('drop');
document.ondragover = (event) => {
  event.preventDefault();
  drop.classList.add('over');
};
document.ondragleave = () => drop.classList.remove('over');
document.ondrop = (event) => {
  event.preventDefault();
  drop.classList.remove('over');
  if (!at('file').disabled) page.start(Array.from(event.dataTransfer?.files ?? []));
};
onbeforeunload = (event) => {
  if (page.isUnsaved) event.preventDefault();
};
page.load().catch((fault) => {
  const isOld = fault instanceof WebAssembly.CompileError || fault instanceof TypeError;
  page.say(isOld ? { key: 'state.old' } : { key: 'state.failed', values: { reason: String(fault) } }, true);
});
