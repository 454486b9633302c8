// Parts of pictures that were lost; and files that other programs saved, in place of a shelf.
import assert from 'node:assert';
import test from 'node:test';
import { isMissionFile, missionFiles } from '../page/given.mjs';
import { isWithoutBounds, pictureOf } from '../page/images.mjs';
import { linesOf, lostAreas, lostLines } from '../page/lost.mjs';
import { checksum, endsOf, fileOf, fileOfBytes, hasItsChecksum, itemOfBytes } from '../page/shelf.mjs';
import { ZipWriter } from '../page/zip.mjs';
import { PlainStation, big, bytesOf, missionFile, packedItem, record } from './support.mjs';

const structure = (columns, lines, compression = 0) =>
  record(1, [8, ...big(columns, 2), ...big(lines, 2), compression]);
const mark = (words) => record(6, bytesOf(`gomtasil mended ${words}`));

/** A file whose header is one packet, and each line of its data another. */
function lined(words, lines, columns = 7) {
  const data = new Array(columns * lines).fill(5);
  const proper = missionFile(0, [structure(columns, lines), mark(words)], data);
  const sizes = [10 + proper.length - data.length, ...new Array(lines).fill(columns)];
  return fileOf(packedItem(proper, sizes), 0);
}

test('the lines of packets that others stand in for', () => {
  const file = lined('5-8 12 of 13', 12);
  assert.deepEqual(endsOf(file).slice(-2), [endsOf(file)[0] + 77, endsOf(file)[0] + 84]);
  assert.deepEqual(lostLines(file), [[4, 8], [11, 12]]);
  assert.deepEqual(linesOf(file, 0, 1), null, 'the header has no lines');
  assert.deepEqual(linesOf(file, 12, 14), null, 'there are no such packets');
  assert.deepEqual(lostLines(lined('1-2 of 99', 12)).length, 1);
});

test('lines that are coded, with and without a packet for the header', () => {
  for (const [ends, wanted] of [[0, [[4, 8], [12, 16]]], [9, [[8, 12], [16, 18]]]]) {
    const records = [structure(7, 18, 1), record(131, [0, 0x20, 16, 4]), mark('2 4 of 6')];
    const proper = missionFile(0, records, new Array(6 * ends).fill(1));
    const sizes = [10 + proper.length - 5 * ends, ...new Array(5).fill(ends)];
    assert.deepEqual(lostLines(fileOf(packedItem(proper, sizes), 0)), wanted);
  }
});

const segment = (number, left, top) => ({ key: '', number, total: 4, left, top, columns: 4, lines: 6, first: 0 });
const piece = (it, columns, lines, lost = []) => ({ segment: it, size: { columns, lines }, lost });

test('segments and tiles that are missing', () => {
  const size = { columns: 4, lines: 6 };
  assert.deepEqual(lostAreas([piece(null, 4, 6, [[2, 3]])], size), [{ left: 0, top: 2, columns: 4, lines: 1 }]);
  const pieces = [piece(segment(0, 0, 0), 4, 2, [[1, 2]]), piece(segment(2, 0, 4), 2, 2)];
  assert.deepEqual(lostAreas(pieces, size), [
    { left: 0, top: 2, columns: 4, lines: 2 },
    { left: 2, top: 4, columns: 2, lines: 2 },
    { left: 0, top: 1, columns: 4, lines: 1 },
  ]);
  const strips = [1, 3].map((it) => piece({ ...segment(it, 0, null), top: null }, 4, 2));
  assert.deepEqual(lostAreas(strips, { columns: 4, lines: 8 }).map((it) => it.top), [0, 4]);
});

test('very many segments are told at once', () => {
  const pieces = Array.from({ length: 60_000 }, (_, it) => piece(segment(it, 0, it), 1, 1)).filter((_, it) => it % 3);
  const from = performance.now();
  assert.ok(lostAreas(pieces, { columns: 1, lines: 60_000 }).length <= 4096);
  assert.ok(performance.now() - from < 3000);
});

test('a file in place of a shelf', async () => {
  const proper = missionFile(0, [structure(3, 2)], [1, 2, 3, 4, 5, 6]);
  assert.ok(isMissionFile(proper) && !isMissionFile(proper.subarray(1)) && !isMissionFile(new Uint8Array(3)));
  const file = fileOfBytes(proper, 4);
  assert.deepEqual([file.number, file.header.fileType, file.data.length], [4, 0, 6]);
  const picture = await pictureOf(new PlainStation(), file);
  assert.deepEqual([picture.columns, picture.lines, ...picture.pixels], [3, 2, 1, 2, 3, 4, 5, 6]);
  const item = itemOfBytes(missionFile(2, [], new Array(20_000).fill(65)));
  assert.ok(hasItsChecksum(item) && checksum(item.subarray(0, 5)) > 0);
  assert.equal(endsOf(fileOf(item, 0)).length, 3, 'in packets of at most 8,000 bytes');
});

test('an image whose packets are coded is none without their bounds', async () => {
  const file = fileOfBytes(missionFile(0, [structure(3, 2, 1), record(131, [0, 0x20, 16, 1])], [1, 2, 3]), 0);
  assert.ok(isWithoutBounds(file));
  assert.equal(await pictureOf(new PlainStation(), file), null);
  const stored = fileOf(packedItem(file.proper, [10 + file.proper.length]), 0);
  assert.ok(!isWithoutBounds(stored), 'on a shelf they are known');
});

test('files alone and in zips, and others that are left out', async () => {
  const zip = new ZipWriter(new Date(0));
  zip.add('a.lrit', missionFile(2, [], [65]));
  zip.add('b.txt', Uint8Array.of(66));
  const given = [new Uint8Array(await zip.end().arrayBuffer()), missionFile(2, [], [67, 68]), new Uint8Array(0)];
  const others = ['no such file', 'PK\x03\x04 and nothing that could be read'];
  given.push(...others.map((it) => Uint8Array.from(bytesOf(it))));
  const slicing = (bytes) => (from, to) => ({ bytes: bytes.slice(from, to) });
  const files = given.map((bytes) => ({ bytes, size: bytes.length, slice: slicing(bytes) }));
  const { found, left } = await missionFiles(files, (part) => part.bytes);
  assert.deepEqual([found.map((it) => it.size), left], [[17, 18], 4]);
});
