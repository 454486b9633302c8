// Devices of the receiver: bytes or a file as its input, and a shelf in memory.

const CHUNK_BYTES = 4 << 20; // that are read from a file at once
const PIECE_BYTES = 1 << 20; // of a shelf, which grows by these
const WINDOW_BYTES = 4 << 20; // of a shelf's file that are read at once

/**
 * @typedef {{take(into: Uint8Array): number}} Input where bytes come from: 0 at the end
 * @typedef {(bytes: Uint8Array) => Uint8Array} Turn makes symbols of what was read
 */

/** Bytes in memory as an input. */
export class BytesInput {
  /** @param {Uint8Array} bytes */
  constructor(bytes) {
    this.bytes = bytes;
    this.place = 0;
  }

  /** @param {Uint8Array} into */
  take(into) {
    const part = this.bytes.subarray(this.place, this.place + into.length);
    into.set(part);
    this.place += part.length;
    return part.length;
  }
}

/** A file as an input, read in chunks: it never lies in memory whole. For a Worker alone. */
export class FileInput {
  /**
   * @param {Blob} file
   * @param {Turn} turn what is done with each chunk
   * @param {number} unit the bytes that are turned together
   * @param {(read: number, size: number) => void} told hears how far it is
   */
  constructor(file, turn, unit, told) {
    this.file = file;
    this.turn = turn;
    this.chunkBytes = Math.floor(CHUNK_BYTES / unit) * unit;
    this.told = told;
    this.read = 0;
    this.chunk = new Uint8Array(0);
    this.used = 0;
  }

  /** @param {Uint8Array} into */
  take(into) {
    while (this.used === this.chunk.length) {
      if (this.read === this.file.size) return 0;
      const end = Math.min(this.read + this.chunkBytes, this.file.size);
      this.chunk = this.turn(bytesOf(this.file.slice(this.read, end)));
      this.read = end;
      this.used = 0;
    }
    const part = this.chunk.subarray(this.used, this.used + into.length);
    into.set(part);
    this.used += part.length;
    const ahead = (this.chunk.length - this.used) / Math.max(1, this.chunk.length);
    this.told(this.read - ahead * Math.min(this.chunkBytes, this.read), this.file.size);
    return part.length;
  }
}

/**
 * The bytes of a part of a file, at once. For a Worker alone.
 * @param {Blob} part
 * @returns {Uint8Array}
 */
export function bytesOf(part) {
  return new Uint8Array(new FileReaderSync().readAsArrayBuffer(part));
}

/** A shelf in memory, in pieces, so that it grows without copies. */
export class MemoryShelf {
  /** @param {Uint8Array} bytes */
  constructor(bytes = new Uint8Array(0)) {
    /** @type {Uint8Array[]} */
    this.pieces = [];
    this.size = 0;
    if (bytes.length) this.write(0, bytes);
  }

  length() {
    return this.size;
  }

  /**
   * Calls for each part of a range that lies in one piece.
   * @param {number} place
   * @param {number} count
   * @param {(piece: Uint8Array, at: number, from: number, size: number) => void} each
   */
  parts(place, count, each) {
    for (let done = 0; done < count; ) {
      const at = (place + done) % PIECE_BYTES;
      const size = Math.min(PIECE_BYTES - at, count - done);
      each(this.pieces[Math.floor((place + done) / PIECE_BYTES)], at, done, size);
      done += size;
    }
  }

  /**
   * Fills the front of `into` with the bytes from a place on, and says how many.
   * @param {number} place
   * @param {Uint8Array} into
   * @returns {number}
   */
  read(place, into) {
    const count = Math.max(0, Math.min(into.length, this.size - place));
    this.parts(place, count, (piece, at, from, size) => into.set(piece.subarray(at, at + size), from));
    return count;
  }

  /**
   * @param {number} place
   * @param {Uint8Array} bytes
   */
  write(place, bytes) {
    const end = place + bytes.length;
    while (this.pieces.length * PIECE_BYTES < end) this.pieces.push(new Uint8Array(PIECE_BYTES));
    this.parts(place, bytes.length, (piece, at, from, size) => piece.set(bytes.subarray(from, from + size), at));
    this.size = Math.max(this.size, end);
  }

  /** @param {number} length */
  cut(length) {
    if (length >= this.size) return;
    this.parts(length, this.size - length, (piece, at, _, size) => piece.fill(0, at, at + size));
    this.size = length;
  }

  sync() {}

  /**
   * The bytes from a place on, fewer where the shelf ends.
   * @param {number} place
   * @param {number} count
   * @returns {Uint8Array}
   */
  slice(place, count) {
    const bytes = new Uint8Array(Math.max(0, Math.min(count, this.size - place)));
    this.read(place, bytes);
    return bytes;
  }

  /**
   * Its first bytes as a file.
   * @param {number} count
   * @returns {Blob}
   */
  front(count) {
    const pieces = this.pieces.map((it, at) => it.subarray(0, Math.max(0, count - at * PIECE_BYTES)));
    return new Blob(/** @type {any} */ (pieces));
  }

  /** @returns {Uint8Array} */
  all() {
    return this.slice(0, this.size);
  }
}

/** A shelf's file that is only read, in windows: it never lies in memory whole. For a Worker alone. */
export class FileShelf {
  /** @param {Blob} file */
  constructor(file) {
    this.file = file;
    this.from = 0;
    this.window = new Uint8Array(0);
  }

  length() {
    return this.file.size;
  }

  /**
   * The bytes from a place on, fewer where the file ends.
   * @param {number} place
   * @param {number} count
   * @returns {Uint8Array}
   */
  slice(place, count) {
    if (count > WINDOW_BYTES) return bytesOf(this.file.slice(place, place + count));
    const isInside = place >= this.from && place + count <= this.from + this.window.length;
    if (!isInside) {
      this.window = bytesOf(this.file.slice(place, place + WINDOW_BYTES));
      this.from = place;
    }
    return this.window.slice(place - this.from, place - this.from + count);
  }

  /**
   * Fills the front of `into` with the bytes from a place on, and says how many.
   * @param {number} place
   * @param {Uint8Array} into
   * @returns {number}
   */
  read(place, into) {
    const bytes = this.slice(place, into.length);
    into.set(bytes);
    return bytes.length;
  }

  /** @param {number} count */
  front(count) {
    return this.file.slice(0, count);
  }

  write() {
    throw new Error('this shelf is only read');
  }

  cut() {
    throw new Error('this shelf is only read');
  }

  sync() {}
}
