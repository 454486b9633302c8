// How a recording is read: its form and its line code. The form is told by the first bytes, and the line codes are tried
// over 4,000,000 symbols from the beginning, and where none locks over as many from the middle. Where nothing locks, why.
import { CODES, FORMS, FORM_BYTES, formsOf, piles } from './forms.mjs';
import { reasonOf } from './reasons.mjs';

export const TRIED_BYTES = 4_000_000; // 244 frames
const LOST_BYTES = 65; // as which a lost frame counts: one more than can be corrected

/**
 * @typedef {import('./station.mjs').Station} Station
 * @typedef {import('./forms.mjs').Code} Code
 * @typedef {import('./forms.mjs').Found} Found
 * @typedef {import('./reasons.mjs').Reason} Reason
 * @typedef {{form: string, code: Code | null}} Chosen what the settings say; nothing is to be found
 * @typedef {{form: string, start: number, code: Code}} Trying
 * @typedef {{frames: number, restored: number, corrected: number}} Sum
 * @typedef {Trying & Sum & {symbols: number}} Try
 * @typedef {{found: Found | null, isEither: boolean, reason: Reason | null}} Answer isEither: signed and unsigned bytes
 *   give the same
 */

/**
 * What a line code gives of some symbols.
 * @param {Station} station
 * @param {Uint8Array} symbols
 * @param {Code} code
 * @returns {Sum}
 */
function tried(station, symbols, code) {
  const { out } = station.run(['decode', '--line', code.line, '--g2', code.g2], { input: symbols });
  const sum = { frames: 0, restored: 0, corrected: 0 };
  for (const line of new TextDecoder().decode(out).split('\n')) {
    const words = line.split(' ');
    if (words[0] !== 'window') continue;
    const isLost = words[6] === 'lost';
    sum.frames += 1;
    sum.restored += isLost ? 0 : 1;
    sum.corrected += isLost ? LOST_BYTES : words.slice(7, 11).reduce((all, it) => all + Number(it), 0);
  }
  return sum;
}

/** The search over one recording. */
class Search {
  /** @type {Try[]} */
  tries = [];

  /**
   * @param {Station} station
   * @param {(start: number, count: number) => Uint8Array} read
   * @param {Code[]} codes
   * @param {(trying: Trying) => void} trying hears of each try before it
   * @param {(tried: Try) => void} told and after it
   */
  constructor(station, read, codes, trying, told) {
    this.station = station;
    this.read = read;
    this.codes = codes;
    this.trying = trying;
    this.told = told;
  }

  /**
   * The line code that restores most frames of this form, or null where none restores any.
   * @param {string} form
   * @param {number} start
   * @returns {{code: Code, sum: Sum, symbols: Uint8Array} | null}
   */
  best(form, start) {
    const { gives, unit, turnFor } = FORMS[form];
    const bytes = this.read(start, (TRIED_BYTES / gives) * unit);
    const symbols = turnFor(bytes)(bytes).subarray(0, TRIED_BYTES);
    let best = null;
    for (const code of this.codes) {
      this.trying({ form, start, code });
      const sum = tried(this.station, symbols, code);
      const one = { form, start, code, ...sum, symbols: symbols.length };
      this.tries.push(one);
      this.told(one);
      if (sum.restored > (best?.sum.restored ?? 0)) best = { code, sum, symbols };
    }
    return best;
  }

  /**
   * Whether bytes that lock are signed, unsigned, or read the same as both: by what is corrected, or where that is the
   * same by their values.
   * @param {{code: Code, sum: Sum, symbols: Uint8Array}} best
   * @returns {'signed' | 'unsigned' | 'either'}
   */
  sign({ code, sum, symbols }) {
    const flipped = tried(this.station, FORMS.unsigned.turnFor(symbols)(symbols), code);
    const [here, there] = [sum, flipped].map((it) => it.corrected - LOST_BYTES * it.frames);
    if (there !== here) return there < here ? 'unsigned' : 'signed';
    return piles(symbols.subarray(0, FORM_BYTES)) ? 'unsigned' : 'either';
  }
}

/**
 * The places of a recording at which a form is tried.
 * @param {string} form
 * @param {boolean} isFirst
 * @param {number} size
 * @returns {number[]}
 */
function startsOf(form, isFirst, size) {
  const { gives, unit } = FORMS[form];
  const middle = Math.floor(size / 2 / unit) * unit;
  return (isFirst || form === 'signed') && size * gives > 2 * TRIED_BYTES * unit ? [0, middle] : [0];
}

/**
 * How a recording is read, or why that can't be told.
 * @param {Station} station
 * @param {number} size of the recording
 * @param {(start: number, count: number) => Uint8Array} read
 * @param {Chosen} chosen
 * @param {(trying: Trying) => void} trying
 * @param {(tried: Try) => void} told
 * @returns {Answer}
 */
export function which(station, size, read, chosen, trying, told) {
  const front = read(0, FORM_BYTES);
  const search = new Search(station, read, chosen.code ? [chosen.code] : CODES, trying, told);
  const reason = reasonOf(front, size, []);
  if (reason.isSure) return { found: null, isEither: false, reason };
  const forms = chosen.form ? [chosen.form] : formsOf(front);
  for (const [place, form] of forms.entries()) {
    if (FORMS[form].input === 'frames') return { found: { form, code: null }, isEither: false, reason: null };
    for (const start of startsOf(form, place === 0, size)) {
      const best = search.best(form, start);
      if (!best) continue;
      const sign = form === 'signed' && !chosen.form ? search.sign(best) : '';
      const found = { form: sign === 'unsigned' ? sign : form, code: best.code };
      return { found, isEither: sign === 'either', reason: null };
    }
  }
  return { found: null, isEither: false, reason: reasonOf(front, size, search.tries) };
}
