// Pictures as PNG, by the chunks of its own document.
import assert from 'node:assert';
import test from 'node:test';
import zlib from 'node:zlib';
import { pngOf, scaled } from '../page/png.mjs';
import { isReadable, pictureOfPgm, sizeOf, thinned } from '../page/images.mjs';
import { bytesOf } from './support.mjs';

/** The chunks of a PNG by their names. */
function chunksOf(png) {
  const found = {};
  for (let at = 8; at < png.length; ) {
    const size = Buffer.from(png).readUInt32BE(at);
    const name = Buffer.from(png).toString('latin1', at + 4, at + 8);
    found[name] = Buffer.from(png.subarray(at + 8, at + 8 + size));
    at += 12 + size;
  }
  return found;
}

test('8 bits', async () => {
  const png = await pngOf({ bits: 8, columns: 3, lines: 2, pixels: Uint8Array.of(0, 1, 255, 7, 8, 9) });
  const { IHDR, IDAT, sBIT } = chunksOf(png);
  assert.equal(Buffer.from(png.subarray(0, 8)).toString('hex'), '89504e470d0a1a0a');
  assert.equal(IHDR.toString('hex'), '00000003000000020800000000');
  assert.equal(zlib.inflateSync(IDAT).toString('hex'), '000001ff00070809');
  assert.equal(sBIT, undefined);
  const last = Buffer.from(png.subarray(-12)).toString('hex');
  assert.equal(last, '0000000049454e44ae426082', 'the last chunk, as its document has it');
});

test('10 bits are scaled to 16, and it is said', async () => {
  const png = await pngOf({ bits: 10, columns: 2, lines: 1, pixels: Uint8Array.of(3, 255, 2, 0) });
  const { IHDR, IDAT, sBIT } = chunksOf(png);
  assert.equal(IHDR[8], 16);
  assert.deepEqual([...sBIT], [10]);
  assert.equal(zlib.inflateSync(IDAT).toString('hex'), '00ffff' + Math.floor((512 * 65535) / 1023).toString(16));
});

test('each depth: 0 stays, the greatest value is the greatest one, and none is told from another no more', () => {
  for (let bits = 1; bits <= 16; bits += 1) {
    const wide = bits > 8 ? 2 : 1;
    const count = 2 ** bits;
    const pixel = (at) => (at % 2 ? (at >> 1) & 255 : at >> 9);
    const pixels = Uint8Array.from({ length: wide * count }, (_, at) => (wide === 1 ? at : pixel(at)));
    const out = scaled({ bits, columns: count, lines: 1, pixels });
    const value = (at) => (wide === 1 ? out[at] : out[2 * at] * 256 + out[2 * at + 1]);
    const values = Array.from({ length: count }, (_, at) => value(at));
    assert.deepEqual([values[0], values.at(-1)], [0, wide === 1 ? 255 : 65535], `${bits} bits`);
    assert.equal(new Set(values).size, count);
  }
});

test('a PGM', () => {
  const picture = pictureOfPgm(Uint8Array.from([...bytesOf('P5\n2 1\n1023\n'), 3, 255, 0, 10]));
  assert.deepEqual([picture.bits, picture.columns, picture.lines, ...picture.pixels], [10, 2, 1, 3, 255, 0, 10]);
});

test('a large picture is shown smaller', () => {
  const pixels = Uint8Array.from({ length: 15 }, (_, it) => it);
  const { step, pixels: few } = thinned({ bits: 8, columns: 5, lines: 3, pixels }, 3);
  assert.deepEqual([step, ...few], [2, 0, 2, 4, 10, 12, 14]);
  const wide = thinned({ bits: 10, columns: 3, lines: 1, pixels: Uint8Array.of(0, 1, 0, 2, 0, 3) }, 2);
  assert.deepEqual([...wide.pixels], [0, 1, 0, 3]);
});

test('sizes that pictures say', () => {
  const text = 'ffd8ffe000104a46494600010100000100010000ffc0000b080010002001011100';
  const jpeg = Uint8Array.from(Buffer.from(text, 'hex'));
  assert.deepEqual(sizeOf(jpeg, '.jpg'), { columns: 32, lines: 16 });
  assert.deepEqual(sizeOf(Uint8Array.from([...bytesOf('GIF89a'), 1, 2, 3, 0]), '.gif'), { columns: 513, lines: 3 });
  const huge = Uint8Array.from(Buffer.from('89504e470d0a1a0a0000000d49484452ffffffffffffffff0800000000', 'hex'));
  assert.equal(isReadable(huge, '.png'), false, 'a picture that says of too many pixels');
  assert.equal(isReadable(Uint8Array.of(0xff, 0xd8, 0xff), '.jpg'), false);
  assert.equal(isReadable(new Uint8Array(40).fill(0xff), '.jpg'), false);
});
