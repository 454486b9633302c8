// What is inside files that are no images: texts, zips, pictures as they were sent; and the headings of bulletins.
import { TYPES, KINDS, firstOf, isEncrypted } from './xrit.mjs';
import { BadZip, isZip, membersOf } from './zip.mjs';
import { safe, unused } from './names.mjs';

const SIGNATURES = [
  { bytes: [0xff, 0xd8, 0xff], ending: '.jpg', type: 'image/jpeg' },
  { bytes: [...'GIF87a'].map((it) => it.charCodeAt(0)), ending: '.gif', type: 'image/gif' },
  { bytes: [...'GIF89a'].map((it) => it.charCodeAt(0)), ending: '.gif', type: 'image/gif' },
  { bytes: [0x89, 0x50, 0x4e, 0x47, 0x0d, 0x0a, 0x1a, 0x0a], ending: '.png', type: 'image/png' },
];
const TEXT_CONTROLS = [9, 10, 13, 12, 1, 2, 3, 4, 0x1a, 0x1b, 0x1e, 0x1f]; // of lines, and of the frames of bulletins
const LEAST_PRINTED = 33;
const LOOKED_BYTES = 4096;
const HEADING = /^([A-Z]{4}[0-9]{2}) ([A-Z]{4}) ([0-9]{6})(?: ([A-Z]{3}))?\s*$/m;
const HEADED_CHARACTERS = 400; // at a text's front in which its heading is looked for

/**
 * @typedef {import('./shelf.mjs').StoredFile} StoredFile
 * @typedef {{ending: string, type: string}} PictureKind
 * @typedef {{name: string, ending: string, bytes: Uint8Array}} Opened what people open
 */

/**
 * Which picture these bytes begin, or null.
 * @param {Uint8Array} bytes
 * @returns {PictureKind | null}
 */
export function pictureKind(bytes) {
  const found = SIGNATURES.find((it) => it.bytes.every((byte, place) => bytes[place] === byte));
  return found ? { ending: found.ending, type: found.type } : null;
}

/**
 * Whether these bytes look like text: no control characters but those of texts, and printable ones.
 * @param {Uint8Array} bytes
 * @returns {boolean}
 */
export function isText(bytes) {
  const isPlain = bytes.every((byte) => byte >= 32 || TEXT_CONTROLS.includes(byte));
  return isPlain && bytes.subarray(0, LOOKED_BYTES).some((byte) => byte >= LEAST_PRINTED);
}

/**
 * A text for people: one line feed after each line, and no control characters, nor any that turn the direction.
 * @param {Uint8Array} bytes
 * @returns {string}
 */
export function readable(bytes) {
  return decoded(bytes)
    .replace(/\r\r\n|\r\n|\r/g, '\n')
    .replace(/[^\P{Cc}\n\t]|[\p{Cf}\p{Cs}]/gu, '');
}

/** @param {Uint8Array} bytes */
function decoded(bytes) {
  try {
    return new TextDecoder('utf-8', { fatal: true, ignoreBOM: true }).decode(bytes);
  } catch {
    // (the browser's latin-1 would be windows-1252)
    let text = '';
    for (let at = 0; at < bytes.length; at += LOOKED_BYTES) {
      text += String.fromCharCode(...bytes.subarray(at, at + LOOKED_BYTES));
    }
    return text;
  }
}

/**
 * The annotation of a file as text.
 * @param {StoredFile} file
 * @returns {string}
 */
export function nameOf(file) {
  const found = file.header && firstOf(file.header, KINDS.annotation);
  return (found && readable(found).trim()) || `file ${file.number}`;
}

/**
 * The heading of a bulletin, which stands in its first lines, by WMO-No. 386; or nothing.
 * @param {string} text
 * @returns {string}
 */
export function headingOf(text) {
  const found = HEADING.exec(text.slice(0, HEADED_CHARACTERS));
  return found ? found.slice(1).filter(Boolean).join(' ') : '';
}

/**
 * What these bytes are, as people open them, where they are no zip.
 * @param {Uint8Array} bytes
 * @param {boolean} isDeclaredText
 * @returns {{ending: string, bytes: Uint8Array}}
 */
export function opened(bytes, isDeclaredText = false) {
  const kind = pictureKind(bytes);
  if (kind) return { ending: kind.ending, bytes };
  if (isText(bytes) || (isDeclaredText && !bytes.includes(0))) {
    return { ending: '.txt', bytes: new TextEncoder().encode(readable(bytes)) };
  }
  return { ending: '.bin', bytes };
}

/**
 * The files of a zip by safe names of their own, each as people open it.
 * @param {Uint8Array} bytes
 * @returns {Promise<Opened[]>}
 */
export async function unzipped(bytes) {
  /** @type {Set<string>} */
  const names = new Set();
  return (await membersOf(bytes)).map((member) => {
    const whole = { ending: '.zip', bytes: member.bytes };
    const { ending, bytes: inside } = isZip(member.bytes) ? whole : opened(member.bytes);
    const plain = safe(member.name) || 'file';
    const name = unused(plain.toLowerCase().endsWith(ending) ? plain : plain + ending, names);
    names.add(name);
    return { name, ending, bytes: inside };
  });
}

/**
 * What is in a file that is no image: itself, or the files of a zip; and why where it can't be opened.
 * @param {StoredFile} file
 * @returns {Promise<{files: Opened[], note: import('./words.mjs').Key | null}>}
 */
export async function inside(file) {
  const { header, data } = file;
  if (!header) return { files: [], note: 'note.header' };
  if (isEncrypted(header)) return { files: [], note: 'note.encrypted' };
  if (!isZip(data)) {
    const { ending, bytes } = opened(data, header.fileType === TYPES.gts || header.fileType === TYPES.text);
    return { files: [{ name: '', ending, bytes }], note: null };
  }
  try {
    return { files: await unzipped(data), note: null };
  } catch (fault) {
    if (!(fault instanceof BadZip)) throw fault;
    return { files: [{ name: '', ending: '.zip', bytes: data }], note: fault.key };
  }
}
