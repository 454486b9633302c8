// The texts of the page: each language has all of them, with the same values and words of the glossary.
import assert from 'node:assert';
import fs from 'node:fs';
import test from 'node:test';
import { LANGUAGES, TERMS, counted, languageOf, text, use } from '../page/words.mjs';

const PAGE = new URL('../page/', import.meta.url);
const { table: english } = LANGUAGES.en;
const marksOf = (it, pattern) => [...it.matchAll(pattern)].map((found) => found[1]).sort();

for (const [code, { table }] of Object.entries(LANGUAGES)) {
  test(`the table of ${code} has each text, with its values and words`, () => {
    assert.deepEqual(Object.keys(table), Object.keys(english));
    for (const [key, words] of Object.entries(table)) {
      assert.ok(words.trim().length > 0, key);
      for (const pattern of [/\{(\w+)\}/g, /`([^`]+)`/g]) {
        assert.deepEqual(marksOf(words, pattern), marksOf(english[key], pattern), key);
      }
      const terms = marksOf(words, /\[(\w+)[\]:]/g);
      assert.deepEqual(terms, marksOf(english[key], /\[(\w+)[\]:]/g), key);
      assert.ok(terms.every((it) => TERMS.includes(it)), key);
    }
  });
}

test('the texts differ between the languages', () => {
  const keys = Object.keys(english).filter((key) => english[key].length > 30);
  const same = keys.filter((key) => Object.values(LANGUAGES).filter(({ table }) => table[key] === english[key]).length > 1);
  assert.deepEqual(same, []);
});

test('each word of the glossary has its meaning', () => {
  for (const term of TERMS) assert.ok(english[`term.${term}`] && english[`about.${term}`], term);
});

test('each text that the page names is there', () => {
  const html = fs.readFileSync(new URL('index.html', PAGE), 'utf8');
  const named = [...html.matchAll(/data-(?:text|label)="([^"]+)"/g)].map((it) => it[1]);
  assert.ok(named.length > 20);
  assert.deepEqual(named.filter((it) => !(it in english)), []);
});

test('the language is the first one that the browser asks for and there is', () => {
  assert.equal(languageOf(['de-AT', 'en']), 'de');
  assert.equal(languageOf(['ko', 'fr', 'en']), 'fr');
  assert.equal(languageOf(['ko']), 'en');
  assert.equal(languageOf([]), 'en');
});

test('values and numbers of things', () => {
  assert.equal(text('tries.restored', { how: 'x', restored: 3, frames: 5 }), 'x: 3 of 5 frames restored');
  assert.equal(text('save.note').includes('The shelf is'), true);
  assert.equal(text('lost.channel', { channel: 13 }), 'It belonged to channel 13.');
  assert.equal(text('files.saves', { number: '[shelf] {x}' }), 'Save file [shelf] {x} as it was received');
  assert.deepEqual(counted('files', 1), { key: 'files.one', values: { count: 1 } });
  assert.deepEqual(counted('files', 0).key, 'files.other');
  use('fr');
  assert.deepEqual(counted('files', 0).key, 'files.one', 'as French has it');
  assert.equal(text('stop'), 'Arrêter');
  use('en');
});
