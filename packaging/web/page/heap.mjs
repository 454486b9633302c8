// Blocks of the module's memory. What the module takes, it takes here; no proof covers this.

const PAGE_BYTES = 65536;
const LEAST_BYTES = 32;
const ALIGNMENT = 16;
const STEPS = 8; // sizes between a power of two and the next one

/** Blocks above a place of a memory. No two of them overlap, each is aligned to 16, and none moves. */
export class Heap {
  /**
   * @param {WebAssembly.Memory} memory
   * @param {number} base the first place that is free
   */
  constructor(memory, base) {
    this.memory = memory;
    this.base = Math.ceil(base / ALIGNMENT) * ALIGNMENT;
    this.top = this.base;
    /** @type {Map<number, number[]>} places of blocks that were given back, by their sizes */
    this.free = new Map();
    /** @type {Map<number, number>} sizes of blocks that are taken, by their places */
    this.sizes = new Map();
    this.used = 0;
    this.most = 0;
    this.asked = 0;
  }

  /**
   * The size of the block that so many bytes get.
   * @param {number} bytes
   * @returns {number}
   */
  static sizeFor(bytes) {
    let power = LEAST_BYTES;
    while (power < bytes) power *= 2;
    const step = Math.max(power / 2 / STEPS, ALIGNMENT);
    return Math.max(LEAST_BYTES, Math.ceil(bytes / step) * step);
  }

  /**
   * A block of so many bytes, or 0 where the memory can't grow.
   * @param {number} bytes
   * @returns {number}
   */
  take(bytes) {
    this.asked += 1;
    const size = Heap.sizeFor(bytes);
    let place = this.free.get(size)?.pop();
    if (place === undefined) {
      if (!this.reaches(this.top + size)) return 0;
      place = this.top;
      this.top += size;
    }
    this.sizes.set(place, size);
    this.used += size;
    this.most = Math.max(this.most, this.used);
    return place;
  }

  /**
   * Whether the memory reaches so far, once it has grown.
   * @param {number} end
   * @returns {boolean}
   */
  reaches(end) {
    const pages = Math.ceil((end - this.memory.buffer.byteLength) / PAGE_BYTES);
    return pages <= 0 || grown(this.memory, pages);
  }

  /**
   * Gives a block back. Once all are given back the memory is used from its beginning again.
   * @param {number} place
   */
  give(place) {
    const size = this.sizes.get(place);
    if (size === undefined) throw new Error('a block was given back that is none');
    this.sizes.delete(place);
    this.used -= size;
    if (this.sizes.size === 0) {
      this.top = this.base;
      this.free.clear();
      return;
    }
    const list = this.free.get(size);
    if (list) list.push(place);
    else this.free.set(size, [place]);
  }

  /**
   * A block of another size with the first bytes of an old one, which it is or which goes; 0 where there is none, and
   * the old one stays.
   * @param {number} place
   * @param {number} kept how many bytes of the old one are wanted
   * @param {number} bytes
   * @returns {number}
   */
  resize(place, kept, bytes) {
    const has = this.sizes.get(place) ?? 0;
    if (bytes <= has && has <= 2 * Heap.sizeFor(bytes)) return place;
    const next = this.take(bytes);
    if (next === 0) return 0;
    new Uint8Array(this.memory.buffer).copyWithin(next, place, place + Math.min(kept, bytes));
    this.give(place);
    return next;
  }
}

/**
 * Whether a memory of 64 bits has grown by so many pages. It takes them as a BigInt; engines before the standard took a
 * number.
 * @param {WebAssembly.Memory} memory
 * @param {number} pages
 * @returns {boolean}
 */
function grown(memory, pages) {
  for (const count of [BigInt(pages), pages]) {
    try {
      memory.grow(/** @type {any} */ (count));
      return true;
    } catch (fault) {
      if (!(fault instanceof TypeError)) return false;
    }
  }
  return false;
}
