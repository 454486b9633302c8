// The shelf's bytes: those of docs/FORMATS.md, hostile ones, and a shelf that grows.
import assert from 'node:assert';
import test from 'node:test';
import { FileShelf, MemoryShelf } from '../page/devices.mjs';
import { fileOf, headsOf, isShelf, shelfOf } from '../page/shelf.mjs';
import { bytesOf, itemOf, missionFile, shelfBytes } from './support.mjs';

const FORMATS = // the shelf of docs/FORMATS.md, byte by byte
  '5A4C525348454C4602 0000000000000064 E053 01 8000 0064 00000001 0000001A' +
  ' 000000000000000000000000000000000000000000000000 001A 00070000000000000088' +
  ' 00001002000000100000000000000000 3B39 00';
const WANTED = Uint8Array.from(Buffer.from(FORMATS.replace(/ /g, ''), 'hex'));

const heads = (bytes) => [...headsOf(new MemoryShelf(bytes))];

test('the shelf of FORMATS has its one file', () => {
  assert.ok(isShelf(WANTED));
  const [head, ...more] = heads(WANTED);
  assert.equal(more.length, 0);
  assert.deepEqual([head.gate, head.extent, head.number], [19, 66, 0]);
  const file = fileOf(WANTED.subarray(20, 86), 0);
  assert.deepEqual([file.channel, file.application, file.packets, file.header.fileType], [0, 100, 1, 2]);
  assert.deepEqual(file.frames, [0, 0]);
});

test('each changed byte is found, or changes no file', () => {
  for (let place = 0; place < WANTED.length; place += 1) {
    const bytes = WANTED.slice();
    bytes[place] ^= 1;
    if (place < 19) assert.equal(isShelf(bytes), false, `byte ${place}`);
    else if (place < 86) {
      const found = heads(bytes).map((head) => fileOf(bytes.subarray(head.gate + 1, head.gate + 1 + head.extent), 0));
      assert.ok(found.every((it) => it === null), `byte ${place}`);
    }
  }
});

test('each front of it is read, and has no file that is not whole', () => {
  for (let size = 0; size < WANTED.length; size += 1) {
    assert.deepEqual(heads(WANTED.slice(0, size)), [], `${size} bytes`);
  }
});

test('old items, and discards', () => {
  const old = itemOf(0, missionFile(2, [], [65]));
  const oldForm = Uint8Array.from([...old.slice(1, 12), ...old.slice(36, -2), 0, 0]);
  const shelf = shelfBytes([oldForm, old, Uint8Array.from([0x81, 0, 0, 0, 0, 0, 0, 0, 1, 0, 0])]);
  const found = heads(shelf);
  assert.equal(found.length, 2, 'a discard with a wrong checksum ends it');
  assert.equal(found[0].extent, oldForm.length);
});

test('a shelf with one item is made', () => {
  const item = WANTED.subarray(20, 86);
  const made = shelfOf(item);
  assert.ok(isShelf(made));
  assert.deepEqual(Buffer.from(made.subarray(20, 86)), Buffer.from(item));
  assert.equal(heads(made).length, 1);
});

test('a shelf in memory is that of a file', () => {
  const shelf = new MemoryShelf();
  const plain = new Uint8Array(3 << 20);
  const write = (place, bytes) => (shelf.write(place, bytes), plain.set(bytes, place));
  write(0, new Uint8Array(10).fill(1));
  write((1 << 20) - 3, new Uint8Array(7).fill(2));
  write((2 << 20) - 1, new Uint8Array(100).fill(3));
  assert.deepEqual(shelf.all(), plain.slice(0, (2 << 20) + 99));
  shelf.cut((1 << 20) - 1);
  assert.equal(shelf.length(), (1 << 20) - 1);
  shelf.write((1 << 20) + 5, Uint8Array.of(9));
  assert.deepEqual(shelf.slice((1 << 20) - 4, 20), Uint8Array.of(0, 2, 2, 0, 0, 0, 0, 0, 0, 9));
  const into = new Uint8Array(5);
  assert.equal(shelf.read(shelf.length() - 2, into), 2);
  assert.equal(shelf.read(shelf.length() + 2, into), 0);
});

/** A file whose bytes are there at once, as a Worker reads them. */
class PlainFile {
  constructor(bytes) {
    this.bytes = bytes;
    this.size = bytes.length;
  }

  slice(from, to) {
    return new PlainFile(this.bytes.slice(from, to));
  }
}

test('a shelf that is read from its file in windows is the one in memory', () => {
  globalThis.FileReaderSync = class {
    readAsArrayBuffer(part) {
      return part.bytes.slice().buffer;
    }
  };
  const bytes = Uint8Array.from({ length: 9 << 20 }, (_, at) => (at * 7 + (at >> 8)) & 255);
  const file = new FileShelf(new PlainFile(bytes));
  const memory = new MemoryShelf(bytes);
  const places = [0, 5, (4 << 20) - 1, 4 << 20, 1, (9 << 20) - 3, 9 << 20, (8 << 20) + 1, 12];
  for (const place of places) {
    for (const count of [1, 40, 70_000, (4 << 20) + 5]) {
      assert.deepEqual(file.slice(place, count), memory.slice(place, count), `${count} from ${place}`);
      const [one, other] = [new Uint8Array(count), new Uint8Array(count)];
      assert.equal(file.read(place, one), memory.read(place, other));
      assert.ok(Buffer.from(one.buffer).equals(Buffer.from(other.buffer)));
    }
  }
  assert.throws(() => file.write(), /only read/);
});

test('the front of a shelf as a file', async () => {
  const bytes = Uint8Array.from({ length: 3 << 20 }, (_, at) => at & 255);
  const shelf = new MemoryShelf(bytes);
  for (const count of [0, 10, 1 << 20, (2 << 20) + 7]) {
    const front = new Uint8Array(await shelf.front(count).arrayBuffer());
    assert.ok(Buffer.from(front).equals(Buffer.from(bytes.subarray(0, count))), `${count}`);
  }
});

test('an annotation of another length than its record is no header', () => {
  const proper = missionFile(2, [[4, 0, 9, ...bytesOf('ab')]], []);
  assert.equal(fileOf(itemOf(0, proper), 0).header, null);
});
