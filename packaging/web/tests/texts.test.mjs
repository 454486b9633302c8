// Texts, zips and names of hostile files.
import assert from 'node:assert';
import test from 'node:test';
import zlib from 'node:zlib';
import { headingOf, inside, isText, opened, pictureKind, readable, unzipped } from '../page/texts.mjs';
import { safe, unused } from '../page/names.mjs';
import { BadZip, MOST_FILES, ZipWriter, crc32, membersOf } from '../page/zip.mjs';
import { fileOf } from '../page/shelf.mjs';
import { itemOf, missionFile, record, bytesOf } from './support.mjs';

const text = (bytes) => new TextDecoder().decode(bytes);
const bytes = (it) => Uint8Array.from(bytesOf(it));

/** A zip of files, each deflated. */
function zipped(files, change = {}) {
  const parts = [];
  const list = [];
  let place = 0;
  for (const [name, data] of files) {
    const packed = change.stored ? Buffer.from(data) : zlib.deflateRawSync(Buffer.from(data));
    const about = Buffer.alloc(22);
    about.writeUInt16LE(change.flags ?? 0, 0);
    about.writeUInt16LE(change.method ?? (change.stored ? 0 : 8), 2);
    about.writeUInt32LE(change.sum ?? crc32(Uint8Array.from(data)), 8);
    about.writeUInt32LE(packed.length, 12);
    about.writeUInt32LE(change.size ?? data.length, 16);
    about.writeUInt16LE(Buffer.byteLength(name), 20);
    const head = Buffer.from('504b03041400', 'hex');
    const local = Buffer.concat([head, about, Buffer.alloc(2), Buffer.from(name), packed]);
    const tail = Buffer.alloc(16);
    tail.writeUInt32LE((change.mode ?? 0) * 65536, 8);
    tail.writeUInt32LE(place, 12);
    list.push(Buffer.concat([Buffer.from('504b010214001400', 'hex'), about, tail, Buffer.from(name)]));
    parts.push(local);
    place += local.length;
  }
  const end = Buffer.alloc(22);
  end.write('PK\x05\x06', 'latin1');
  const size = list.reduce((sum, it) => sum + it.length, 0);
  end.writeUInt16LE(files.length, 8);
  end.writeUInt16LE(files.length, 10);
  end.writeUInt32LE(size, 12);
  end.writeUInt32LE(place, 16);
  return Uint8Array.from(Buffer.concat([...parts, ...list, end]));
}

test('checksums of the zip form, as its document has them', () => {
  assert.equal(crc32(bytes('123456789')), 0xcbf43926);
  assert.equal(crc32(bytes('6789'), crc32(bytes('12345'))), 0xcbf43926);
});

test('texts are told from others', () => {
  assert.ok(isText(bytes('TTAA00 KWBC\r\r\n\x03')));
  assert.ok(!isText(Uint8Array.of(0, 65)) && !isText(bytes('  \n')) && !isText(Uint8Array.of(65, 7)));
});

test('a text has no control characters, and no characters that turn its direction', () => {
  assert.equal(readable(bytes('a\r\r\nb\r\nc\rd\x01\x1b[31m\u202e\u0085\t!')), 'a\nb\nc\nd[31m\t!');
  assert.equal(readable(Uint8Array.of(0xe9, 0x41, 0x92)), 'éA', 'latin-1, whose controls go too');
});

test('headings of bulletins', () => {
  assert.equal(headingOf('\nTTAA00 KWBC 291700\nTEXT'), 'TTAA00 KWBC 291700');
  assert.equal(headingOf('WTNT31 KNHC 041445 CCA \n'), 'WTNT31 KNHC 041445 CCA');
  assert.equal(headingOf('x'.repeat(400) + '\nTTAA00 KWBC 291700\n'), '');
});

test('pictures by their first bytes', () => {
  assert.equal(pictureKind(Uint8Array.of(0xff, 0xd8, 0xff, 0xe0)).ending, '.jpg');
  assert.equal(pictureKind(bytes('GIF89a...')).type, 'image/gif');
  assert.equal(pictureKind(bytes('GIF88a')), null);
  assert.equal(opened(Uint8Array.of(1, 0, 2)).ending, '.bin');
});

test('names stay in their folder, and are no options', () => {
  assert.equal(safe('../../etc/passwd'), '_._.._etc_passwd');
  assert.equal(safe('-rf <img src=x onerror=alert(1)>'), '_rf__img_src_x_onerror_alert_1__');
  assert.equal(safe('é'.repeat(200)).length, 150);
  assert.equal(unused('a', new Set(['a', '2-a'])), '3-a');
});

test('the files of a zip, with names of their own', async () => {
  const twice = [['../A.TXT', bytesOf('text\r\n')], ['../A.TXT', [1, 0]]];
  const files = await unzipped(zipped([...twice, ['d/', []], ['b', bytesOf('PK\x03\x04x')]]));
  assert.deepEqual(files.map((it) => it.name), ['_._A.TXT', '_._A.TXT.bin', 'b.zip']);
  assert.equal(text(files[0].bytes), 'text\n');
});

test('stored files, and links that are left out', async () => {
  assert.equal(text((await membersOf(zipped([['a', bytesOf('plain')]], { stored: true })))[0].bytes), 'plain');
  await assert.rejects(membersOf(zipped([['a', bytesOf('x')]], { mode: 0xa1ff })), /zip\.empty/);
});

const BAD = [
  ['too many files', zipped(Array.from({ length: MOST_FILES + 1 }, (_, it) => [`${it}`, [65]])), /zip\.many/],
  ['a bomb', zipped([['a', new Uint8Array(40 << 20)]]), /zip\.large/],
  ['a bomb that says of 1 byte', zipped([['a', new Uint8Array(40 << 20)]], { size: 1 }), /zip\.large/],
  ['an encrypted file', zipped([['a', bytesOf('x')]], { flags: 1 }), /zip\.packing/],
  ['another packing', zipped([['a', bytesOf('x')]], { method: 12 }), /zip\.packing/],
  ['a wrong checksum', zipped([['a', bytesOf('x')]], { sum: 1 }), /zip\.sum/],
  ['no list', zipped([['a', bytesOf('x')]]).slice(0, -22), /zip\.unreadable/],
  ['four bytes', bytes('PK\x03\x04'), /zip\.unreadable/],
];
for (const [name, zip, word] of BAD) test(`a zip with ${name} stays one`, () => assert.rejects(membersOf(zip), word));

test('each front and each changed byte of a zip is read or refused, and nothing else is thrown', async () => {
  const zip = zipped([['a', bytesOf('some text '.repeat(20))], ['b', bytesOf('other')]]);
  const looked = async (it) => membersOf(it).catch((fault) => assert.ok(fault instanceof BadZip, String(fault)));
  for (let size = 0; size < zip.length; size += 1) await looked(zip.slice(0, size));
  for (let place = 0; place < zip.length; place += 1) {
    const changed = zip.slice();
    changed[place] ^= 0xff;
    await looked(changed);
  }
});

test('bombs beside each other share the room', async () => {
  const many = Array.from({ length: 80 }, (_, it) => [`${it}`, new Uint8Array(1 << 20)]);
  await assert.rejects(membersOf(zipped(many)), /zip\.large/);
});

test('what is inside a file', async () => {
  const file = (data, records = [], type = 2) => fileOf(itemOf(0, missionFile(type, records, data)), 0);
  assert.equal((await inside(file(bytesOf('hello')))).files[0].ending, '.txt');
  assert.match((await inside(file(bytesOf('hello'), [record(7, [1])]))).note, /note\.encrypted/);
  assert.match((await inside(file(zipped([['a', bytesOf('x')]], { sum: 1 })))).note, /note\.zip\.sum/);
  assert.equal((await inside(file([0, 1], [], 130))).files[0].ending, '.bin');
});

test('a zip that is written is one that others read', async () => {
  const writer = new ZipWriter(new Date(Date.UTC(2026, 10, 29, 17, 0, 20)));
  writer.add('one.txt', bytes('first'));
  writer.add('zwei-ä.bin', Uint8Array.of(0, 1, 2));
  const all = new Uint8Array(await writer.end().arrayBuffer());
  const found = await membersOf(all);
  assert.deepEqual(found.map((it) => [it.name, text(it.bytes)]), [['one.txt', 'first'], ['zwei-ä.bin', '\0\x01\x02']]);
});
