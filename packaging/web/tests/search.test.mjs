// How a recording is read, and why nothing was found: the cases that the tool's tests read too.
import assert from 'node:assert';
import fs from 'node:fs';
import test from 'node:test';
import { CODES, FORMS } from '../page/forms.mjs';
import { reasonOf } from '../page/reasons.mjs';
import { which } from '../page/search.mjs';
import { LANGUAGES } from '../page/words.mjs';

const { cases, texts } = JSON.parse(fs.readFileSync(new URL('../../../tools/tests/reasons.json', import.meta.url), 'utf8'));
const ELSEWHERE = ['lrit']; // what the page opens
const NOTHING = { form: '', code: null };

/** The bytes of a generator. */
function* draws(seed) {
  let state = BigInt(seed);
  for (;;) {
    state = BigInt.asUintN(64, state * 6364136223846793005n + 1442695040888963407n);
    yield Number(state >> 56n);
  }
}

/** The front of a case, as reasons.json describes it. */
function frontOf({ hex, draw, count, seed }) {
  if (hex !== undefined) return Uint8Array.from(Buffer.from(hex, 'hex'));
  const drawn = draws(seed);
  const next = () => drawn.next().value;
  const kinds = {
    uniform: () => Uint8Array.from({ length: count }, next),
    middle: () => Uint8Array.from({ length: count }, () => 128 + Math.floor((next() + next() + next() + next() - 510) / 8)),
    floats: () => new Uint8Array(Float32Array.from({ length: count / 4 }, () => (next() - 128) / 128).buffer),
  };
  return kinds[draw]();
}

for (const { name, front, size, tries, reason } of cases) {
  test(`the reason for ${name}`, () => assert.equal(reasonOf(frontOf(front), size, tries).key, reason));
}

test('each reason has the text of the tool', () => {
  for (const [key, text] of Object.entries(texts)) {
    if (ELSEWHERE.includes(key)) continue;
    assert.equal(LANGUAGES.en.table[`reason.${key}`].replace(/\[(\w+)\]/g, '$1'), text);
  }
});

/** A module in which one code restores symbols that begin so, and another one finds frames and restores none. */
const locking = (code, first, weak = null) => ({
  run: (words, { input }) => {
    const is = (it) => it && words[2] === it.line && words[4] === it.g2;
    const count = is(weak) ? 244 : 1;
    const outcome = is(code) && input[0] === first ? 'restored 0 1 2 3' : 'lost 0';
    const lines = Array.from({ length: count }, (_, it) => `window ${it} at 0 polarity + ${outcome}\n`);
    return { out: new TextEncoder().encode(`${lines.join('')}symbols 1 frames ${count}\n`) };
  },
});

/** What is found in bytes, and what was tried. */
function search(station, bytes, chosen = NOTHING) {
  const tried = [];
  const read = (start, count) => bytes.slice(start, start + count);
  const answer = which(station, bytes.length, read, chosen, () => {}, (it) => tried.push(it));
  return { ...answer, tried };
}

const plain = new Uint8Array(1000).fill(5);

test('the code that locks is found, and each try is told', () => {
  const { found, tried, isEither } = search(locking(CODES[2], 5), plain);
  assert.deepEqual(found, { form: 'signed', code: CODES[2] });
  assert.deepEqual(tried.map((it) => it.restored), [0, 0, 1, 0]);
  assert.ok(!isEither);
  assert.deepEqual(search(locking(CODES[0], 5 ^ 0x80), plain).found, { form: 'unsigned', code: CODES[0] });
  assert.equal(search(locking(CODES[0], 99), plain).found, null);
});

test('bytes that read the same as signed and as unsigned are told so', () => {
  const both = { run: () => ({ out: new TextEncoder().encode('window 0 at 0 polarity + restored 0 0 0 0\n') }) };
  assert.ok(search(both, plain).isEither);
});

test('a file that is plainly no recording is not tried', () => {
  for (const hex of ['', 'ffd8ffe0', '504b0304']) {
    const { reason, tried } = search(locking(CODES[0], 5), Uint8Array.from(Buffer.from(hex, 'hex')));
    assert.deepEqual([reason.isSure, tried.length], [true, 0]);
  }
});

test('each setting that is left to be found is found', () => {
  const shorts = new Uint8Array(Int16Array.from({ length: 40_000 }, (_, it) => 3000 * (it % 7 < 3 ? 1 : -1) + it % 97).buffer);
  const first = FORMS.s16le.turnFor(shorts)(shorts)[0];
  const station = locking(CODES[3], first);
  const wanted = { form: 's16le', code: CODES[3] };
  const ways = [NOTHING, { form: '', code: CODES[3] }, { form: 's16le', code: null }, wanted];
  for (const chosen of ways) assert.deepEqual(search(station, shorts, chosen).found, wanted, JSON.stringify(chosen));
  assert.equal(search(station, shorts).tried[0].form, 's16le', 'the form is told before codes are tried');
  assert.equal(search(station, shorts, { form: '', code: CODES[1] }).found, null);
  assert.equal(search(station, shorts, { form: 'signed', code: null }).found, null);
});

test('a weak signal is told with its code', () => {
  const long = frontOf({ draw: 'uniform', count: 4_000_000, seed: 6 });
  const { reason } = search(locking(CODES[0], 999, CODES[3]), long);
  assert.equal(reason.key, 'weak');
  assert.deepEqual([reason.heard.code, reason.heard.frames], [CODES[3], 244]);
});
