// What happens layer by layer: bits and bytes beside the plain programs of reference/, packets, and what a gap took.
import assert from 'node:assert';
import { spawnSync } from 'node:child_process';
import test from 'node:test';
import { correctedBlock, randomised } from '../page/codewords.mjs';
import { DATA_BYTES, packetsIn } from '../page/frames.mjs';
import { CODES } from '../page/forms.mjs';
import { MemoryShelf } from '../page/devices.mjs';
import { Layers } from '../page/layers.mjs';
import { Groups } from '../page/segments.mjs';
import { fileOf, headsOf } from '../page/shelf.mjs';
import { frameSymbols, hitsOf, nearestBits, packed, unpackedBits, wrongSigns } from '../page/trellis.mjs';
import { windowOfLine } from '../page/windows.mjs';
import { big, bytesOf, missionFile, packedItem, record, shelfBytes } from './support.mjs';

const REFERENCE = new URL('../../../reference', import.meta.url).pathname;
const DRAW = `
import json, blocks, line_codes
found = []
for seed, wrong in enumerate([[0, 0, 0, 0], [3, 0, 16, 7], [16, 16, 16, 16], [1, 17, 0, 0], [0, 0, 0, 40]], 1):
    frame, block = blocks.received(seed, wrong)
    bits = [byte >> (7 - at) & 1 for byte in block for at in range(8)]
    sent = line_codes.MARKER + bits + line_codes.MARKER[:6]
    symbols = [line_codes.coded([0] * 6 + line_codes.levels_of(sent, marks), inverted)
        for marks in (False, True) for inverted in (1, 0)]
    answer = blocks.outcome(block)[:2]
    found.append({"wrong": wrong, "frame": frame, "block": block, "symbols": symbols, "answer": answer})
print(json.dumps(found))
`;
const env = { ...process.env, PYTHONPATH: REFERENCE };
const drawn = spawnSync('python3', ['-c', DRAW], { env, maxBuffer: 1 << 28 });
const CASES = JSON.parse(drawn.stdout.toString());

test('bits of each line code, with some wrong numbers', () => {
  for (const { block, symbols } of CASES.slice(0, 2)) {
    for (const [place, code] of CODES.entries()) {
      const clean = Int8Array.from(symbols[place], (it) => (it ? 60 : -60));
      const values = clean.map((it, at) => (at % 41 === 7 ? -it : it));
      const bits = nearestBits(code, values);
      assert.deepEqual([...packed(bits)], block, `${code.line} ${code.g2}`);
      assert.deepEqual([...unpackedBits(packed(bits))], [...bits]);
      const marker = [7, 48].filter((it) => it >= 12).length;
      assert.equal(hitsOf(code, values), 52 - marker);
      const wanted = Array.from({ length: 16384 - 12 }, (_, at) => at + 12).filter((at) => at % 41 === 7).length;
      assert.deepEqual(wrongSigns(frameSymbols(code, bits), values), { wrong: wanted, compared: 16372 });
    }
  }
});

test('words are corrected as far as they can be', () => {
  for (const { wrong, frame, block, answer } of CASES) {
    const found = correctedBlock(randomised(Uint8Array.from(block)));
    if (answer[0] === 'lost') assert.deepEqual(found, { lost: answer[1] }, wrong.join(' '));
    else {
      assert.deepEqual(found.corrected, answer[1], wrong.join(' '));
      assert.deepEqual([...found.block.subarray(0, DATA_BYTES)], frame);
    }
  }
});

/** A frame of a channel whose zone begins with packets, each an application, flags, a count and a size. */
function frameOf(channel, counter, packets, pointer = 0) {
  const heads = packets.map(([application, part, count, size]) =>
    [...big(application, 2), ...big((part << 14) | count, 2), ...big(size - 1, 2), ...new Array(size).fill(0)]);
  const head = [...big(0x4000 | channel, 2), ...big(counter, 3), 0, ...big(pointer, 2)];
  const zone = [...head, ...new Array(pointer % 2046).fill(0), ...heads.flat()];
  const bytes = Uint8Array.from({ length: 1020 }, (_, at) => zone[at] ?? 0);
  return { channel, counter, after: bytes, isFill: channel === 63, packets: channel === 63 ? [] : packetsIn(bytes) };
}

test('packets that begin in a frame', () => {
  const { packets } = frameOf(13, 5, [[313, 1, 9, 40], [2047, 3, 0, 700], [313, 0, 10, 90]]);
  const wanted = [[8, 313, 1, 9, 40, false], [54, 2047, 3, 0, 700, true], [760, 313, 0, 10, 90, false]];
  const found = packets.map((it) => [it.start, it.application, it.part, it.count, it.size, it.isIdle]);
  assert.deepEqual(found, [...wanted, [856, 0, 0, 0, 1, false], [863, 0, 0, 0, 1, false], [870, 0, 0, 0, 1, false],
    [877, 0, 0, 0, 1, false], [884, 0, 0, 0, 1, false]]);
  assert.deepEqual(packetsIn(frameOf(13, 5, [], 2047).after), []);
});

test('a line of decode', () => {
  const restored = { at: 16384, isInverted: true, lost: -1, corrected: [1, 2, 3, 255] };
  assert.deepEqual(windowOfLine('window 1 at 16384 polarity - restored 1 2 3 255'), restored);
  const lost = { at: 7, isInverted: false, lost: 2, corrected: [] };
  assert.deepEqual(windowOfLine('window 0 at 7 polarity + lost 2'), lost);
  assert.equal(windowOfLine('symbols 16384 frames 1 restored 1 lost 0 left 0 stop end'), null);
});

/** An image of ten lines of 100 columns, whose header is a packet and each of its lines another. */
function imageItem(frames, mark, number = 0) {
  const segment = record(128, [1, number, 0, 10 * number, 2, 100, 20].flatMap((it) => big(it, 2)));
  const structure = record(1, [8, ...big(100, 2), ...big(10, 2), 0]);
  const texts = mark ? [record(6, bytesOf(`gomtasil mended ${mark} of 11`))] : [];
  const proper = missionFile(0, [structure, record(4, bytesOf('EARTH')), segment, ...texts], new Array(1000).fill(9));
  const sizes = [10 + proper.length - 1000, ...new Array(10).fill(100)];
  return packedItem(proper, sizes, { channel: 13, application: 313, frames });
}

/** The layers of frames, of which null is a lost one, beside a shelf of items. */
function layersOf(frames, items) {
  const shelf = new MemoryShelf(shelfBytes(items));
  const heads = new Map([...headsOf(shelf)].map((it) => [it.number, it]));
  const file = (number) => fileOf(shelf.slice(heads.get(number).gate + 1, heads.get(number).extent), number);
  const groups = new Groups();
  for (const number of heads.keys()) groups.add(file(number));
  const lost = { channel: -1, after: null, packets: [], isFill: false };
  const frame = (number) => (number in frames ? (frames[number] ?? lost) : null);
  return new Layers({ windows: frames.map(() => ({})), frame }, { shelf, heads, file, groups });
}

const start = frameOf(13, 100, [[313, 1, 16383, 200], [313, 0, 0, 102], [313, 0, 1, 102]]);
const end = frameOf(13, 102, [[313, 0, 6, 102], [313, 2, 9, 102]], 300);

test('the file and the lines of packets that begin in a frame, over the end of the counts', () => {
  const layers = layersOf([start, frameOf(63, 7, []), end], [imageItem([0, 2], '')]);
  const { files, lines } = layers.filesOf(0, start);
  assert.deepEqual(files, [{ key: 'file.text', values: { name: 'EARTH', packets: 11, first: 0, last: 2 } }]);
  assert.deepEqual(lines, [{ key: 'lines.text', values: { name: 'EARTH', first: 1, last: 2 } }]);
  assert.deepEqual(layers.filesOf(2, end).lines[0].values, { name: 'EARTH', first: 7, last: 10 });
  assert.deepEqual(layers.filesOf(2, frameOf(13, 0, [[99, 0, 3, 800]])), { files: [], lines: [] });
  assert.deepEqual([layers.nextPicture(0), layers.nextPicture(2)], [2, -1]);
});

test('what a lost frame took: fill, lines of a picture, a whole segment, or what can not be told', () => {
  const fill = [5, 6, 8, 9].map((it) => frameOf(63, it, []));
  assert.deepEqual(layersOf([...fill.slice(0, 2), null, ...fill.slice(2)], []).lostWith(2), [{ key: 'lost.fill' }]);
  assert.deepEqual(layersOf([fill[0], null, null, fill[1]], []).lostWith(1), [{ key: 'lost.unknown' }]);
  const channel = { key: 'lost.channel', values: { channel: 13 } };
  const lines = layersOf([start, null, end], [imageItem([0, 2], '3-6')]).lostWith(1);
  assert.deepEqual(lines, [channel, { key: 'lines.lost', values: { name: 'EARTH', first: 3, last: 6 } }]);
  const other = frameOf(13, 102, [[313, 1, 30, 200]]);
  const before = layersOf([start, null, other], [imageItem([2, 2], '', 1)]).lostWith(1);
  assert.deepEqual(before, [channel, { key: 'lines.whole', values: { name: 'EARTH', first: 1, last: 10 } }]);
  assert.deepEqual(layersOf([start, null, other], []).lostWith(1), [channel, { key: 'lost.file' }]);
});
