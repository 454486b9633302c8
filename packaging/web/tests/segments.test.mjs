// Which files are joined to one picture, and how: the cases that the tool's tests read too.
import assert from 'node:assert';
import fs from 'node:fs';
import test from 'node:test';
import { joinedPicture, pictureOf } from '../page/images.mjs';
import { Groups, inWords } from '../page/segments.mjs';
import { fileOf } from '../page/shelf.mjs';
import { PlainStation, imageItem, valuesOf } from './support.mjs';

const { cases } = JSON.parse(fs.readFileSync(new URL('../../../tools/tests/segments.json', import.meta.url), 'utf8'));

/** The picture of a group, as the page makes it. */
async function pictureOfGroup(group, files) {
  const parts = [];
  for (const { number, segment } of group.parts) {
    const picture = await pictureOf(new PlainStation(), files[number]);
    if (!segment) return picture;
    if (picture) parts.push({ segment, picture });
  }
  return parts.length ? joinedPicture(parts) : null;
}

for (const { name, files, pictures } of cases) {
  test(name, async () => {
    const stored = files.map((it, number) => fileOf(imageItem(number, it), number));
    const groups = new Groups();
    stored.forEach((it) => groups.add(it));
    assert.deepEqual(groups.all.map((group) => group.parts.map((it) => it.number)), pictures.map((it) => it.files));
    for (const [place, group] of groups.all.entries()) {
      const wanted = pictures[place];
      assert.equal(inWords(group.missing), wanted.missing);
      assert.deepEqual(group.mended, wanted.mended ? { fillers: wanted.mended[0], packets: wanted.mended[1] } : null);
      const picture = await pictureOfGroup(group, stored);
      if (wanted.none) {
        assert.equal(picture, null);
        continue;
      }
      assert.deepEqual([picture.columns, picture.lines, picture.bits], [wanted.columns, wanted.lines, wanted.bits]);
      const wide = picture.bits > 8 ? 2 : 1;
      const values = valuesOf(wanted).flatMap((it) => (wide === 2 ? [it >> 8, it & 255] : [it]));
      assert.deepEqual([...picture.pixels], values);
    }
  });
}

test('there are cases', () => assert.ok(cases.length > 20));
