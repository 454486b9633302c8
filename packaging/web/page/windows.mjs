// What became of each frame of a recording, from the lines of `decode`.

const MOST_WINDOWS = 200_000;

/**
 * @typedef {object} Window
 * @property {number} at the number of the recording at which the frame begins
 * @property {boolean} isInverted whether the signal is upside down
 * @property {number} lost the first word that can't be corrected, or -1
 * @property {number[]} corrected bytes in the four words
 */

/**
 * The frame of a line, as `window 0 at 0 polarity + restored 0 0 0 0`, or null.
 * @param {string} line
 * @returns {Window | null}
 */
export function windowOfLine(line) {
  const words = line.split(' ');
  if (words[0] !== 'window' || words.length < 8 || Number(words[1]) >= MOST_WINDOWS) return null;
  const isLost = words[6] === 'lost';
  return {
    at: Number(words[3]),
    isInverted: words[5] === '-',
    lost: isLost ? Number(words[7]) : -1,
    corrected: isLost ? [] : words.slice(7, 11).map(Number),
  };
}
