// Texts of the page, by their keys, in the browser's language. Each language has a table of its own, with the same keys.
// In a text {name} stands for a value, [term] or [term:shown] for a word of the glossary, and `code` for code.
import { ENGLISH } from './words-en.mjs';
import { FRENCH } from './words-fr.mjs';
import { GERMAN } from './words-de.mjs';
import { SPANISH } from './words-es.mjs';
import { element } from './elements.mjs';

/**
 * @typedef {keyof typeof ENGLISH} Key
 * @typedef {Record<Key, string>} Table
 * @typedef {Record<string, string | number>} Values
 * @typedef {{key: Key, values?: Values}} Said a text that is put into words by the page
 */

/** @type {Record<string, {name: string, table: Table}>} */
export const LANGUAGES = {
  en: { name: 'English', table: ENGLISH },
  de: { name: 'Deutsch', table: GERMAN },
  es: { name: 'Español', table: SPANISH },
  fr: { name: 'Français', table: FRENCH },
};
const PARTS = /\{(\w+)\}|\[(\w+)(?::([^\]]+))?\]|`([^`]+)`/g;
export const TERMS = /** @type {const} */ ([
  'recording', 'demodulator', 'symbol', 'linecode', 'viterbi', 'frame', 'marker', 'reedsolomon', 'channel', 'packet',
  'apid', 'segment', 'lrit', 'shelf',
]);

let language = 'en';

/**
 * The first of these languages that there is a table for, or English.
 * @param {readonly string[]} wanted such as ['de-AT', 'en']
 * @returns {string}
 */
export function languageOf(wanted) {
  return wanted.map((it) => it.slice(0, 2).toLowerCase()).find((it) => it in LANGUAGES) ?? 'en';
}

/** @param {string} code */
export function use(code) {
  language = code;
}

export function used() {
  return language;
}

/**
 * A text with its values, without marks.
 * @param {Key} key
 * @param {Values} [values]
 * @returns {string}
 */
export function text(key, values = {}) {
  return LANGUAGES[language].table[key].replace(PARTS, (_, name, term, shown, code) => {
    if (name) return String(values[name]);
    return code ?? (shown ? filled(shown, values) : word(term));
  });
}

/**
 * The words for a term with their values.
 * @param {string} shown
 * @param {Values} values
 */
const filled = (shown, values) => shown.replace(/\{(\w+)\}/g, (_, name) => String(values[name]));

/**
 * A text as nodes: words of the glossary say what they mean.
 * @param {Key} key
 * @param {Values} [values]
 * @returns {(Node | string)[]}
 */
export function rich(key, values = {}) {
  const whole = LANGUAGES[language].table[key];
  const nodes = [];
  let end = 0;
  for (const { 0: part, 1: name, 2: term, 3: shown, 4: code, index = 0 } of whole.matchAll(PARTS)) {
    nodes.push(whole.slice(end, index));
    if (name) nodes.push(String(values[name]));
    else nodes.push(code ? element('code', { textContent: code }) : abbreviation(term, shown && filled(shown, values)));
    end = index + part.length;
  }
  return [...nodes, whole.slice(end)].filter((it) => it !== '');
}

/** @param {string} term */
const word = (term) => LANGUAGES[language].table[/** @type {Key} */ (`term.${term}`)];

/**
 * @param {string} term
 * @param {string} [shown]
 */
function abbreviation(term, shown) {
  const title = LANGUAGES[language].table[/** @type {Key} */ (`about.${term}`)];
  return element('abbr', { title, tabIndex: -1, textContent: shown ?? word(term) });
}

/**
 * The text for a number of things: that of `key.one` or of `key.other`.
 * @param {string} key
 * @param {number} count
 * @param {Values} [values]
 * @returns {Said}
 */
export function counted(key, count, values = {}) {
  const isOne = new Intl.PluralRules(language).select(count) === 'one';
  return { key: /** @type {Key} */ (`${key}.${isOne ? 'one' : 'other'}`), values: { count, ...values } };
}

/** @param {Said} said */
export const wordsOf = ({ key, values }) => text(key, values);

/** @param {Said} said */
export const nodesOf = ({ key, values }) => rich(key, values);

/** Puts the texts into each element of the page that names one. */
export function fillPage() {
  document.documentElement.lang = language;
  document.title = text('title');
  document.querySelectorAll('[data-text], [data-label]').forEach((it) => {
    const { text: inside, label } = /** @type {{text?: Key, label?: Key}} */ (/** @type {HTMLElement} */ (it).dataset);
    if (inside) it.replaceChildren(...rich(inside));
    if (label) it.setAttribute('aria-label', text(label));
  });
}
