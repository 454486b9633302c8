// What a Worker with `lr_run` does: it finds the line code, holds the shelf, and makes pictures, texts and files of it.
import { FileShelf, MemoryShelf, bytesOf } from './devices.mjs';
import { FrameReader } from './frames.mjs';
import { missionFiles } from './given.mjs';
import { isReadable, isWithoutBounds, joinedPicture, pictureOf, thinned } from './images.mjs';
import { Layers } from './layers.mjs';
import { lostAreas, lostLines } from './lost.mjs';
import { safe, stampName } from './names.mjs';
import { worsened } from './noise.mjs';
import { pngOf } from './png.mjs';
import { which } from './search.mjs';
import { Groups, inWords } from './segments.mjs';
import { CLOSED, HEADER_BYTES, fileOf, fileOfBytes, headsOf } from './shelf.mjs';
import { lineReader } from './quality.mjs';
import { headingOf, inside, nameOf, pictureKind } from './texts.mjs';
import { TYPES, isEncrypted, mendedOf, stampOf, structureOf } from './xrit.mjs';
import { ZipWriter } from './zip.mjs';

const MOST_SIDE = 640; // of a picture in the list
const MOST_SHOWN_CHARACTERS = 100_000; // of a text as it is shown
const DRAW_SHARE = 4; // of the time between two drawings, drawing takes one part
const PAUSE_AFTER = 30; // milliseconds of work after which messages are heard
const MOST_DRAWN = 60; // pictures in the list until more are asked for
const WHOLE_ENDING = '.lrit';

/**
 * @typedef {import('./station.mjs').Station} Station
 * @typedef {import('./shelf.mjs').StoredFile} StoredFile
 * @typedef {import('./shelf.mjs').Head} Head
 * @typedef {import('./segments.mjs').Group} Group
 * @typedef {import('./receiver.mjs').Change} Change
 * @typedef {import('./messages.mjs').Told} Told
 * @typedef {import('./messages.mjs').PictureTold | import('./messages.mjs').SentTold} Drawn
 * @typedef {(message: Told) => void} Tell
 * @typedef {import('./words.mjs').Key} Key
 * @typedef {{name: string, bytes: Uint8Array}} Saved
 */

/** The shelf and what it has. */
export class Keeper {
  /** @type {MemoryShelf | FileShelf} */
  shelf = new MemoryShelf();
  groups = new Groups();
  gate = HEADER_BYTES; // where the next item is looked for
  number = 0; // of the next file
  /** @type {Map<number, Head>} */
  heads = new Map();
  /** @type {Set<number>} */
  gone = new Set();
  /** @type {number[]} */
  queue = []; // files that are to be looked at
  /** @type {Blob[]} */
  given = []; // files in place of a shelf
  /** @type {import('./windows.mjs').Window[]} */
  windows = []; // what became of the recording's frames
  /** @type {Layers | null} */
  layers = null;
  /** @type {Set<Group>} */
  changed = new Set(); // pictures that are to be drawn
  /** @type {Set<Group>} */
  drawn = new Set(); // those in the list
  /** @type {Set<Group>} */
  waiting = new Set(); // those that are drawn when more are asked for
  most = MOST_DRAWN; // pictures in the list
  run = 0; // which shelf it is
  drawFrom = 0;
  isBusy = false;
  isEnding = false;

  /**
   * @param {Station} station
   * @param {Tell} tell
   */
  constructor(station, tell) {
    this.station = station;
    this.tell = tell;
  }

  /**
   * Begins again with another shelf.
   * @param {MemoryShelf | FileShelf} shelf
   */
  begin(shelf = new MemoryShelf()) {
    const { station, tell, run } = this;
    Object.assign(this, new Keeper(station, tell), { shelf, run: run + 1 });
  }

  // ---- the shelf

  /** @param {Change} change */
  change(change) {
    const shelf = /** @type {MemoryShelf} */ (this.shelf);
    if (change.kind === 'write') shelf.write(change.place, change.bytes);
    if (change.kind === 'cut') shelf.cut(change.length);
    if (change.kind === 'shelved') this.look();
  }

  /** Takes what has come onto the shelf. */
  look() {
    for (const head of headsOf(this.shelf, this.gate, this.number)) {
      this.gate = head.gate + 1 + head.extent;
      if (head.isDiscard) this.gone.add(head.number);
      else {
        this.number += 1;
        this.heads.set(head.number, head);
        this.queue.push(head.number);
      }
    }
    this.work();
  }

  /** There will be no more changes: all is drawn, and then it is told. */
  end() {
    this.look();
    this.isEnding = true;
    this.work();
  }

  /**
   * A saved shelf in place of this one. Where it breaks off, the files before that are shown.
   * @param {Blob} file
   * @param {Station} live
   */
  open(file, live) {
    this.begin(new FileShelf(file));
    let [bad, err] = [0, ''];
    const lines = lineReader((line) => {
      bad += Number(/^file [0-9]+ bad /.test(line));
    });
    /** @param {number} output @param {Uint8Array} bytes */
    const put = (output, bytes) => {
      if (output === 1) lines(bytes);
      else err += new TextDecoder().decode(bytes);
    };
    const status = live.live(['verify'], { input: { take: () => 0 }, shelf: this.shelf, put });
    for (const head of headsOf(this.shelf)) if (head.isDiscard) this.gone.add(head.number);
    this.look();
    this.tell({ kind: 'opened', status, err: err.trim(), bad, files: this.count });
    this.end();
  }

  /**
   * LRIT and HRIT files, alone or in zips, in place of a shelf.
   * @param {File[]} files
   */
  async give(files) {
    this.begin();
    const { run } = this;
    const { found, left } = await missionFiles(files, bytesOf);
    if (this.run !== run) return;
    this.given = found;
    this.queue = [...found.keys()];
    this.tell({ kind: 'given', files: found.length, left });
    this.isEnding = true;
    this.work();
  }

  /** How many files there are. */
  get count() {
    return this.given.length + this.heads.size - this.gone.size;
  }

  /**
   * A file of the shelf, or null where its checksum is wrong.
   * @param {number} number
   * @returns {StoredFile | null}
   */
  file(number) {
    if (this.given[number]) return fileOfBytes(bytesOf(this.given[number]), number);
    const head = this.heads.get(number);
    return head ? fileOf(this.shelf.slice(head.gate + 1, head.extent), number) : null;
  }

  // ---- work

  /** Looks at new files and draws pictures that have changed, with pauses in which messages are heard. */
  async work() {
    if (this.isBusy) return;
    this.isBusy = true;
    const { run } = this;
    let from = 0;
    while (this.queue.length || this.changed.size) {
      if (performance.now() - from > PAUSE_AFTER) {
        await new Promise((go) => setTimeout(go, 0));
        from = performance.now();
      }
      if (this.run !== run) return;
      await this.step().catch((fault) => this.tell({ kind: 'trouble', text: String(fault) }));
    }
    if (this.run !== run) return;
    this.isBusy = false;
    if (this.isEnding) this.tell({ kind: 'settled', files: this.count, waiting: this.waiting.size });
    this.isEnding = false;
  }

  /** Draws a picture where it is time for that, and else looks at a file. */
  async step() {
    const wait = this.isEnding && !this.queue.length ? 0 : this.drawFrom - performance.now();
    if (this.changed.size && wait <= 0) await this.drawOne();
    else if (this.queue.length) await this.lookAt(/** @type {number} */ (this.queue.shift()));
    else await new Promise((go) => setTimeout(go, Math.min(wait, 10 * PAUSE_AFTER)));
  }

  /** Draws more pictures. */
  more() {
    this.most += MOST_DRAWN;
    this.changed = this.waiting;
    this.waiting = new Set();
    this.isEnding = true;
    this.work();
  }

  /**
   * Tells of a new file.
   * @param {number} number
   */
  async lookAt(number) {
    if (this.gone.has(number)) return;
    const { run } = this;
    const file = this.file(number);
    if (!file) {
      this.tell({ kind: 'file', number, name: '', stamp: '', size: 0, corrected: 0, type: 'type.damaged', note: null });
      return;
    }
    const { header } = file;
    const isPicture = header !== null && header.fileType === TYPES.image && structureOf(header) !== null;
    const found = isPicture ? { files: [], note: null } : await inside(file);
    if (this.run !== run) return;
    const type = isPicture ? 'type.picture' : typeOf(found.files);
    this.tell({ ...aboutFile(file), type, note: noteOf(header, found.note) });
    const group = isPicture ? this.groups.add(file) : null;
    if (group) this.changed.add(group);
    for (const [member, it] of found.files.entries()) this.tellOpened(file, member, it);
  }

  /**
   * Tells what a file has inside: a text, or a picture as it was sent.
   * @param {StoredFile} file
   * @param {number} member
   * @param {import('./texts.mjs').Opened} it
   */
  tellOpened(file, member, it) {
    const name = [nameOf(file), it.name].filter(Boolean).join(' · ');
    const about = { number: file.number, member, name, stamp: stampText(file.header) };
    const whole = { missing: '', lacking: 0, mended: null };
    const kind = pictureKind(it.bytes);
    if (kind && isReadable(it.bytes, kind.ending)) {
      this.tell({ kind: 'sent', ...about, ...whole, bytes: it.bytes, type: kind.type });
    }
    if (it.ending !== '.txt') return;
    const text = new TextDecoder().decode(it.bytes);
    const isCut = text.length > MOST_SHOWN_CHARACTERS;
    this.tell({ kind: 'text', ...about, heading: headingOf(text), text: text.slice(0, MOST_SHOWN_CHARACTERS), isCut });
  }

  /**
   * The picture of a group and what it lacks, or null.
   * @param {Group} group
   */
  async picture(group) {
    const parts = [];
    for (const { number, segment } of group.parts) {
      const file = this.file(number);
      const picture = file && (await pictureOf(this.station, file));
      if (picture) parts.push({ segment, picture, lost: lostLines(file) });
      if (picture && !segment) break;
    }
    const [one] = parts;
    const known = parts.flatMap(({ segment, picture }) => (segment ? [{ segment, picture }] : []));
    const picture = one && !one.segment ? one.picture : known.length ? joinedPicture(known) : null;
    if (!picture) return null;
    const pieces = parts.map(({ segment, lost, picture: it }) => {
      return { segment, lost, size: { columns: it.columns, lines: it.lines } };
    });
    return { picture, lost: lostAreas(pieces, picture) };
  }

  /** Draws the newest picture that is to be drawn. Where the list is full, the oldest one in it makes room. */
  async drawOne() {
    const group = newestOf(this.changed);
    this.changed.delete(group);
    const oldest = this.drawn.size < this.most || this.drawn.has(group) ? null : oldestOf(this.drawn);
    if (oldest && oldest.id > group.id) {
      this.waiting.add(group);
      return;
    }
    const start = performance.now();
    const { run } = this;
    const message = await this.drawing(group);
    if (this.run !== run) return;
    if (oldest) this.drop(oldest);
    this.drawn.add(group);
    this.tell(message);
    this.drawFrom = performance.now() + DRAW_SHARE * (performance.now() - start);
  }

  /** @param {Group} group */
  drop(group) {
    this.drawn.delete(group);
    this.waiting.add(group);
    this.tell({ kind: 'dropped', id: group.id });
  }

  /**
   * What is told of a picture.
   * @param {Group} group
   * @returns {Promise<Drawn>}
   */
  async drawing(group) {
    const about = aboutGroup(group);
    const sent = this.asSent(group);
    if (sent) {
      const { file, kind } = sent;
      return { kind: 'sent', ...about, number: file.number, member: 0, bytes: file.data, type: kind.type };
    }
    const seen = await this.seen(group, MOST_SIDE);
    if (typeof seen !== 'string') return { kind: 'picture', ...about, seen };
    return { kind: 'picture', ...about, seen: null, note: seen };
  }

  /**
   * A picture as it is looked at, no side of it longer than so many pixels; or the key of the text that says why not.
   * @param {Group} group
   * @param {number} most
   * @returns {Promise<import('./paint.mjs').Seen | Key>}
   */
  async seen(group, most) {
    try {
      const found = await this.picture(group);
      if (!found) return this.hasNoBounds(group) ? 'picture.bounds' : 'picture.none';
      const { picture, lost } = found;
      const { bits, columns, lines } = picture;
      return { bits, columns, lines, lost, ...thinned(picture, most) };
    } catch (fault) {
      if (!(fault instanceof RangeError)) throw fault;
      return 'picture.large';
    }
  }

  /** @param {Group} group */
  hasNoBounds(group) {
    const file = this.file(group.parts[0].number);
    return file !== null && isWithoutBounds(file);
  }

  /**
   * The file of a picture that is shown as it was sent: a JPEG, GIF or PNG that is no segment.
   * @param {Group} group
   */
  asSent(group) {
    if (group.segment && group.segment.total > 1) return null;
    const file = this.file(group.parts[0].number);
    const kind = file && pictureKind(file.data);
    const isShown = file?.header && kind && !isEncrypted(file.header) && isReadable(file.data, kind.ending);
    return isShown ? { file, kind } : null;
  }

  // ---- frames

  /**
   * The recording that comes, whose frames may be looked at.
   * @param {Blob} file
   * @param {import('./forms.mjs').Found} found
   */
  record(file, found) {
    this.layers = new Layers(new FrameReader(file, found, this.windows), this);
  }

  /**
   * Tells what happens to a frame, or to the next one after it in which a part of a picture begins.
   * @param {number} number
   * @param {boolean} isNext
   */
  tellLayers(number, isNext) {
    const { layers, windows } = this;
    const place = isNext && layers ? layers.nextPicture(number) : number;
    const frame = layers?.reader.frame(place) ?? null;
    if (!layers || !frame) {
      this.tell({ kind: 'layers', number, layered: null });
      return;
    }
    const { files, lines } = layers.filesOf(place, frame);
    const lost = windows[place].lost < 0 ? [] : layers.lostWith(place);
    this.tell({ kind: 'layers', number: place, layered: { frame, window: windows[place], files, lines, lost } });
  }

  // ---- what is saved

  /**
   * The picture of a group as a file.
   * @param {Group} group
   * @returns {Promise<Saved | null>}
   */
  async savedPicture(group) {
    const { number } = group.parts[0];
    const stem = stemOf(group.header, group.name, number);
    const sent = this.asSent(group);
    if (sent) return { name: stem + sent.kind.ending, bytes: sent.file.data };
    const found = await this.picture(group);
    const lacks = group.missing.length ? `-lacks-${group.missing.length}` : '';
    const mended = group.mended ? `-mended-${group.mended.fillers}` : '';
    return found && { name: `${stem}${lacks}${mended}.png`, bytes: await pngOf(found.picture) };
  }

  /**
   * What is inside a file that is no picture, as files: the file as it came where nothing can be opened.
   * @param {StoredFile} file
   * @returns {Promise<Saved[]>}
   */
  async savedInside(file) {
    const stem = stemOf(file.header, nameOf(file), file.number);
    const { files } = await inside(file);
    if (!files.length) return [wholeOf(file)];
    return files.map((it) => ({ name: it.name ? `${stem}-${it.name}` : stem + it.ending, bytes: it.bytes }));
  }

  /** All files as one zip: pictures and texts as people open them, others as they came. */
  async packed() {
    const zip = new ZipWriter(new Date());
    for (const group of this.groups.all) {
      const saved = await this.savedPicture(group);
      const parts = saved ? [] : group.parts.map((part) => this.file(part.number));
      const files = saved ? [saved] : parts.flatMap((it) => (it ? [wholeOf(it)] : []));
      for (const it of files) zip.add(it.name, it.bytes);
    }
    const inGroups = new Set(this.groups.all.flatMap((group) => group.parts.map((part) => part.number)));
    for (const number of [...this.given.keys(), ...this.heads.keys()]) {
      const file = inGroups.has(number) || this.gone.has(number) ? null : this.file(number);
      for (const it of file ? await this.savedInside(file) : []) zip.add(it.name, it.bytes);
    }
    return zip.end();
  }

  // ---- what the page asks for

  /**
   * @param {Blob} file
   * @param {import('./search.mjs').Chosen} chosen
   */
  which(file, chosen) {
    const read = (/** @type {number} */ at, /** @type {number} */ count) => bytesOf(file.slice(at, at + count));
    const trying = (/** @type {import('./search.mjs').Trying} */ it) => this.tell({ kind: 'trying', ...it });
    const told = (/** @type {import('./search.mjs').Try} */ it) => this.tell({ kind: 'tried', ...it });
    const answer = which(this.station, file.size, read, chosen, trying, told);
    this.tell({ kind: 'found', ...answer });
  }

  /**
   * Sends the files of a shelf as symbols, with so many wrong bytes in each word, and made worse.
   * @param {import('./messages.mjs').Transmit} sample
   */
  transmit({ shelf, files, wrong, worse }) {
    const words = ['transmit', '0', String(files), String(wrong), '--line', 'nrz-m', '--g2', 'plain'];
    const { status, out, err } = this.station.run(words, { shelf, rooms: { out: 1 << 23, shelf: shelf.length } });
    if (status !== 0) throw new Error(err);
    this.tell({ kind: 'sample', bytes: worsened(out, worse) });
  }

  /**
   * Tells a picture as it is looked at.
   * @param {number} id
   * @param {number} most pixels of a side
   */
  async tellSeen(id, most) {
    const { run } = this;
    const seen = await this.seen(this.groups.all[id], most);
    if (this.run !== run) return;
    if (typeof seen === 'string') this.tell({ kind: 'looked', id, most, seen: null, note: seen });
    else this.tell({ kind: 'looked', id, most, seen });
  }

  /** @param {number} id */
  async save(id) {
    const saved = await this.savedPicture(this.groups.all[id]);
    this.tell({ kind: 'saved', ...saved, type: 'image/png' });
  }

  /**
   * @param {number} number
   * @param {number} member -1 for the file as it came
   */
  async saveFile(number, member) {
    const file = this.file(number);
    if (!file) return;
    const saved = member < 0 ? wholeOf(file) : (await this.savedInside(file))[member];
    this.tell({ kind: 'saved', ...saved, type: 'application/octet-stream' });
  }

  async saveAll() {
    this.tell({ kind: 'saved', name: 'files.zip', bytes: await this.packed(), type: 'application/zip' });
  }

  /** The shelf up to its last item, with the closed gate that ends it. */
  saveShelf() {
    const bytes = new Blob([this.shelf.front(this.gate), Uint8Array.of(CLOSED)]);
    this.tell({ kind: 'saved', name: 'station.shelf', bytes, type: 'application/octet-stream' });
  }
}

/**
 * The name of a saved file without its ending.
 * @param {StoredFile['header']} header
 * @param {string} name
 * @param {number} number
 * @returns {string}
 */
function stemOf(header, name, number) {
  const plain = name.endsWith(WHOLE_ENDING) ? name.slice(0, -WHOLE_ENDING.length) : name;
  return `${stampName(header && stampOf(header))}${safe(plain) || 'file'}.${number}`;
}

/** @param {StoredFile} file */
function wholeOf(file) {
  return { name: stemOf(file.header, nameOf(file), file.number) + WHOLE_ENDING, bytes: file.proper };
}

/** @param {StoredFile['header']} header */
function stampText(header) {
  const stamp = header && stampOf(header);
  return stamp ? `${stamp.toISOString().slice(0, 16).replace('T', ' ')} UTC` : '';
}

/** @param {Set<Group>} groups */
const newestOf = (groups) => [...groups].reduce((one, other) => (other.id > one.id ? other : one));

/** @param {Set<Group>} groups */
const oldestOf = (groups) => [...groups].reduce((one, other) => (other.id < one.id ? other : one));

/** @param {Group} group */
function aboutGroup({ id, name, header, missing, mended }) {
  return { id, name, stamp: stampText(header), missing: inWords(missing), lacking: missing.length, mended };
}

/** @param {StoredFile} file */
function aboutFile(file) {
  const { number, corrected, proper, header } = file;
  const kind = /** @type {const} */ ('file');
  return { kind, number, corrected, size: proper.length, name: nameOf(file), stamp: stampText(header) };
}

/**
 * What a file is.
 * @param {import('./texts.mjs').Opened[]} files
 * @returns {Key}
 */
function typeOf(files) {
  if (!files.length) return 'type.kept';
  if (files.length > 1 || files[0].name) return 'type.zip';
  /** @type {Record<string, Key>} */
  const types = { '.txt': 'type.text', '.bin': 'type.other', '.zip': 'type.zip' };
  return types[files[0].ending] ?? 'type.picture';
}

/**
 * What is to be said of a file besides.
 * @param {StoredFile['header']} header
 * @param {Key | null} note
 * @returns {import('./words.mjs').Said | null}
 */
function noteOf(header, note) {
  if (header && isEncrypted(header)) return { key: 'note.encrypted' };
  const mended = header && mendedOf(header);
  if (mended) return { key: 'note.mended', values: { fillers: mended.fillers, packets: mended.packets } };
  return note ? { key: note } : null;
}
