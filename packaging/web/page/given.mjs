// LRIT and HRIT files that were saved by other programs, alone or in zips, in place of a shelf.
import { MOST_FILE_BYTES, TRANSPORT_BYTES } from './shelf.mjs';
import { isZip, membersOf } from './zip.mjs';

const FRONT_BYTES = 16; // of a primary record, with which such a file begins
const MOST_GIVEN_BYTES = MOST_FILE_BYTES - TRANSPORT_BYTES;

/**
 * Whether bytes begin as such a file does: with its primary record.
 * @param {Uint8Array} front
 * @returns {boolean}
 */
export function isMissionFile(front) {
  return front.length >= FRONT_BYTES && front[0] === 0 && front[1] === 0 && front[2] === FRONT_BYTES;
}

/**
 * The LRIT and HRIT files among these and in the zips among them, and how many others there are.
 * @param {File[]} files
 * @param {(part: Blob) => Uint8Array} read
 * @returns {Promise<{found: Blob[], left: number}>}
 */
export async function missionFiles(files, read) {
  /** @type {Blob[]} */
  const found = [];
  let left = 0;
  /** @param {Blob} file @param {Uint8Array} front */
  const take = (file, front) => {
    if (file.size <= MOST_GIVEN_BYTES && isMissionFile(front)) found.push(file);
    else left += 1;
  };
  for (const file of files) {
    const front = read(file.slice(0, FRONT_BYTES));
    if (!isZip(front) || file.size > MOST_GIVEN_BYTES) {
      take(file, front);
      continue;
    }
    const members = await membersOf(read(file)).catch(() => null);
    for (const { bytes } of members ?? []) take(new Blob([/** @type {BlobPart} */ (bytes)]), bytes);
    if (!members) left += 1;
  }
  return { found, left };
}
