// The four words of a frame's block: the randomiser and the Reed-Solomon code of CCSDS 131.0-B. The proved receiver has
// its own; this one shows which bytes are corrected.

const WORDS = 4;
const WORD_BYTES = 255;
const MOST_WRONG = 16;
const [FIELD, LENGTH] = [0x187, 255];
const FIRST_ROOT = 112;
const ROOTS = 32;
const ROOT_STEP = 11;
const TO_DUAL = [0x8d, 0xef, 0xec, 0x86, 0xfa, 0x99, 0xaf, 0x7b];
const FROM_DUAL = [0xc5, 0x42, 0x2e, 0xfd, 0xf0, 0x79, 0xac, 0xcc];

const POWERS = new Uint8Array(2 * LENGTH); // of the field's generator
const LOGARITHMS = new Uint8Array(256);
for (let at = 0, value = 1; at < LENGTH; at += 1) {
  POWERS[at] = value;
  POWERS[at + LENGTH] = value;
  LOGARITHMS[value] = at;
  value = (value << 1) ^ (value & 0x80 ? FIELD : 0);
}

/** @param {number} one @param {number} other */
const times = (one, other) => (one && other ? POWERS[LOGARITHMS[one] + LOGARITHMS[other]] : 0);

/** @param {number} one @param {number} other not 0 */
const over = (one, other) => (one ? POWERS[LOGARITHMS[one] + LENGTH - LOGARITHMS[other]] : 0);

/** @param {number} exponent of the code's own generator */
const rootOf = (exponent) => POWERS[(((ROOT_STEP * exponent) % LENGTH) + LENGTH) % LENGTH];

/** @param {number[]} rows @param {number} byte */
const byRows = (rows, byte) => rows.reduce((sum, row, at) => sum ^ ((byte >> (7 - at)) & 1 ? row : 0), 0);
const DUALS = Uint8Array.from({ length: 256 }, (_, byte) => byRows(TO_DUAL, byte));
const PLAINS = Uint8Array.from({ length: 256 }, (_, byte) => byRows(FROM_DUAL, byte));

/** The randomiser's bytes: x^8 + x^7 + x^5 + x^3 + 1, from all ones. */
const SEQUENCE = (() => {
  const bits = new Array(8).fill(1);
  for (let at = 0; bits.length < 8 * WORDS * WORD_BYTES; at += 1) {
    bits.push(bits[at + 7] ^ bits[at + 5] ^ bits[at + 3] ^ bits[at]);
  }
  const byteAt = (/** @type {number} */ at) => parseInt(bits.slice(8 * at, 8 * at + 8).join(''), 2);
  return Uint8Array.from({ length: WORDS * WORD_BYTES }, (_, at) => byteAt(at));
})();

/**
 * Bytes with the randomiser's added, which takes them away again too.
 * @param {Uint8Array} block
 * @returns {Uint8Array}
 */
export function randomised(block) {
  return block.map((byte, at) => byte ^ SEQUENCE[at]);
}

/**
 * The value of a polynomial, whose coefficient of x^0 comes first.
 * @param {ArrayLike<number>} polynomial
 * @param {number} at
 * @returns {number}
 */
function valueOf(polynomial, at) {
  let value = 0;
  for (let place = polynomial.length - 1; place >= 0; place -= 1) value = times(value, at) ^ polynomial[place];
  return value;
}

/**
 * The values of a word at the code's roots.
 * @param {Uint8Array} plain
 * @returns {number[]}
 */
const syndromesOf = (plain) =>
  Array.from({ length: ROOTS }, (_, at) => {
    const root = rootOf(FIRST_ROOT + at);
    return plain.reduce((value, byte) => times(value, root) ^ byte, 0);
  });

/**
 * The shortest recurrence of the syndromes (Berlekamp and Massey), whose roots tell the places of wrong bytes.
 * @param {number[]} syndromes
 * @returns {number[]}
 */
function locatorOf(syndromes) {
  let [locator, before] = [[1], [1]];
  let [length, shift, scale] = [0, 1, 1];
  for (let at = 0; at < syndromes.length; at += 1) {
    let difference = syndromes[at];
    for (let term = 1; term <= length; term += 1) difference ^= times(locator[term] ?? 0, syndromes[at - term]);
    if (!difference) {
      shift += 1;
      continue;
    }
    const factor = over(difference, scale);
    const next = [...locator];
    before.forEach((it, place) => (next[place + shift] = (next[place + shift] ?? 0) ^ times(factor, it)));
    for (let place = 0; place < next.length; place += 1) next[place] ??= 0;
    if (2 * length <= at) [length, before, scale, shift] = [at + 1 - length, locator, difference, 1];
    else shift += 1;
    locator = next;
  }
  return locator.slice(0, length + 1);
}

/**
 * A word with its wrong bytes corrected, or null where more than sixteen are wrong.
 * @param {Uint8Array} word
 * @returns {Uint8Array | null}
 */
function correctedWord(word) {
  const plain = word.map((byte) => PLAINS[byte]);
  const syndromes = syndromesOf(plain);
  if (syndromes.every((it) => it === 0)) return word;
  const locator = locatorOf(syndromes);
  const count = locator.length - 1;
  if (count > MOST_WRONG) return null;
  const values = Array.from({ length: count }, (_, at) =>
    locator.slice(0, at + 1).reduce((sum, it, place) => sum ^ times(it, syndromes[at - place]), 0),
  );
  const slopes = locator.slice(1).map((it, at) => (at % 2 ? 0 : it));
  for (let place = 0; place < WORD_BYTES; place += 1) {
    const back = rootOf(-(WORD_BYTES - 1 - place));
    const slope = valueOf(slopes, back);
    if (valueOf(locator, back) || !slope) continue;
    const weight = rootOf(-(WORD_BYTES - 1 - place) * (FIRST_ROOT - 1));
    plain[place] ^= times(over(valueOf(values, back), slope), weight);
  }
  return syndromesOf(plain).every((it) => it === 0) ? plain.map((byte) => DUALS[byte]) : null;
}

/**
 * The corrected bytes of a block that isn't randomised, and how many were wrong in each word; or the first word that
 * can't be corrected.
 * @param {Uint8Array} block
 * @returns {{block: Uint8Array, corrected: number[]} | {lost: number}}
 */
export function correctedBlock(block) {
  const whole = block.slice();
  const corrected = [];
  for (let word = 0; word < WORDS; word += 1) {
    const bytes = block.filter((_, at) => at % WORDS === word);
    const right = correctedWord(bytes);
    if (!right) return { lost: word };
    corrected.push(right.reduce((sum, byte, at) => sum + Number(byte !== bytes[at]), 0));
    right.forEach((byte, at) => (whole[WORDS * at + word] = byte));
  }
  return { block: whole, corrected };
}
