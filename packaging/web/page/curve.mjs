// The curve of the quality: where frames were lost, and how many bytes were corrected in the others.
import { element } from './elements.mjs';
import { rich, text, used } from './words.mjs';

const [WIDTH, HEIGHT, LEFT, RIGHT, TOP, BOTTOM] = [680, 190, 34, 44, 8, 40];
const LIMIT = 64; // bytes of a frame that one pass can correct at most: sixteen in each of four words
const TICKS = 4;
const RATE = 927_000; // symbols a second of the line code that GOES sends
const SVG = 'http://www.w3.org/2000/svg';

/**
 * @typedef {import('./quality.mjs').Bucket} Bucket
 * @typedef {import('./messages.mjs').Quality} Quality
 * @typedef {import('./words.mjs').Said} Said
 */

/**
 * @param {string} name
 * @param {Record<string, string | number>} properties
 * @param {string} [inside]
 */
function shape(name, properties, inside = '') {
  const it = document.createElementNS(SVG, name);
  for (const [key, value] of Object.entries(properties)) it.setAttribute(key, String(value));
  it.textContent = inside;
  return it;
}

/**
 * What the curve says, in words.
 * @param {Bucket} total
 * @param {boolean} [isCounted]
 * @returns {Said[]}
 */
export function saidOf({ frames, lost, redecoded, corrected }, isCounted = false) {
  if (!frames) return [{ key: 'quality.none' }];
  const whole = frames - lost;
  const mean = whole ? (corrected / whole).toFixed(1) : '0';
  const share = ((100 * lost) / frames).toFixed(lost && lost < frames / 100 ? 2 : 0);
  /** @type {Said[]} */
  const said = [{ key: 'quality.lost', values: { frames, lost, share } }];
  if (isCounted) return [...said, { key: 'quality.counters' }];
  if (redecoded) said.push({ key: 'quality.again', values: { count: redecoded } });
  return [...said, { key: 'quality.corrected', values: { mean, most: LIMIT } }];
}

const [EDGE, BASE] = [WIDTH - RIGHT, HEIGHT - BOTTOM];

/**
 * The bars of lost frames, and the line of corrected bytes.
 * @param {Quality} quality
 * @returns {SVGElement[]}
 */
function marksOf({ buckets, isCounted }) {
  const wide = (EDGE - LEFT) / buckets.length;
  const high = BASE - TOP;
  /** @type {string[]} */
  const points = [];
  const bars = buckets.flatMap(({ frames, lost, corrected }, place) => {
    const x = LEFT + place * wide;
    const mean = Math.min(LIMIT, corrected / Math.max(1, frames - lost));
    if (frames > lost) points.push(`${x + wide / 2},${BASE - (high * mean) / LIMIT}`);
    const height = (high * lost) / Math.max(1, frames);
    return lost ? [shape('rect', { class: 'lost', x, y: BASE - height, width: Math.max(1, wide), height })] : [];
  });
  return isCounted ? bars : [...bars, shape('polyline', { class: 'corrected', points: points.join(' ') })];
}

/**
 * @param {number} x
 * @param {number} y
 * @param {'start' | 'middle' | 'end'} anchor
 * @param {string} inside
 */
const label = (x, y, anchor, inside) => shape('text', { x, y, 'text-anchor': anchor }, inside);

/**
 * The axes with their numbers: frames below, corrected bytes on the left, the share of lost frames on the right.
 * @param {Quality} quality
 * @returns {SVGElement[]}
 */
function axesOf({ frames, isCounted }) {
  const line = (/** @type {number[]} */ [x1, y1, x2, y2]) => shape('line', { class: 'axis', x1, y1, x2, y2 });

  const ticks = Array.from({ length: TICKS + 1 }, (_, at) => {
    const number = String(Math.round((frames * at) / TICKS));
    return label(LEFT + ((EDGE - LEFT) * at) / TICKS, BASE + 15, at < TICKS ? 'middle' : 'end', number);
  });
  const left = isCounted ? [] : [label(LEFT - 6, TOP + 10, 'end', String(LIMIT)), label(LEFT - 6, BASE, 'end', '0')];
  const right = [label(EDGE + 6, TOP + 10, 'start', '100 %'), label(EDGE + 6, BASE, 'start', '0 %')];
  const lines = [[LEFT, BASE, EDGE, BASE], [LEFT, TOP, LEFT, BASE], [EDGE, TOP, EDGE, BASE]].map(line);
  return [...lines, ...ticks, ...left, ...right, label((LEFT + EDGE) / 2, BASE + 32, 'middle', text('quality.axis'))];
}

/**
 * The curve, and what it says.
 * @param {Quality} quality
 * @param {(from: number, to: number) => void} choose hears of a part of the recording that is clicked, from 0 to 1
 * @param {number} seconds that the recording has, or 0 where that isn't known
 * @returns {Node[]}
 */
export function curveOf(quality, choose, seconds) {
  const { buckets, total, isCounted } = quality;
  const said = saidOf(total, isCounted);
  const name = said.map(({ key, values }) => text(key, values)).join(' ');
  const svg = shape('svg', { viewBox: `0 0 ${WIDTH} ${HEIGHT}`, role: 'img', 'aria-label': name });
  svg.append(...marksOf(quality), ...axesOf(quality));
  svg.onclick = ({ clientX }) => {
    const { left, width } = svg.getBoundingClientRect();
    const place = Math.floor((((clientX - left) * WIDTH) / width - LEFT) / ((EDGE - LEFT) / buckets.length));
    if (place >= 0 && place < buckets.length) choose(place / buckets.length, (place + 1) / buckets.length);
  };
  const words = element('p', {});
  for (const { key, values } of said) words.append(...rich(key, values), ' ');
  const rate = RATE.toLocaleString(used());
  if (seconds) words.append(text('quality.seconds', { count: Math.round(seconds), rate }), '.');
  const legend = rich(isCounted ? 'quality.legend.counters' : 'quality.legend');
  return [svg, words, element('p', { className: 'small' }, ...legend)];
}

/**
 * How many seconds so many symbols are, where the line code tells their rate; else 0.
 * @param {number} symbols
 * @param {import('./forms.mjs').Code | null} code
 */
export function secondsOf(symbols, code) {
  return code?.line === 'nrz-m' && code.g2 === 'plain' ? symbols / RATE : 0;
}
