// The commands that are compared: words, the file that is read, and the file with the shelf before. The files are those
// that web.sh makes: README's, with noise in some, and damaged ones.

const CODE = ['--line', 'nrz-m', '--g2', 'plain'];
const NUMBERS = [0, 1, 2, 3, 4, 5, 6];
const RECORDINGS = ['recording', 'noisy0.7', 'noisy1.0', 'noise', 'cut', 'plain.soft'];

/**
 * @typedef {{words: string[], input: string, shelf: string}} Case
 * @returns {Case[]}
 */
export function cases() {
  /** @type {Case[]} */
  const found = [];
  /** @param {string[]} words @param {string} [shelf] @param {string} [input] */
  const add = (words, shelf = 'my.shelf', input = 'none') => found.push({ words, input, shelf });
  for (const words of [['list'], ['verify'], ['render'], ['render', '--workers', '3']]) add(words);
  for (const number of NUMBERS) for (const name of ['show', 'extract', 'export']) add([name, String(number)]);
  for (const words of ['0 6 313 1', '0 2 313 1', '0 6 9 1']) add(['assemble', ...words.split(' ')]);
  for (const block of ['8', '16', '32', '64', '9']) add(['repack', '1', block]);
  for (const words of ['discard 2', 'discard 9', 'init 5', 'init 1000000', 'nonsense', 'show', 'show 1 2', '']) {
    add(words.split(' '));
  }
  for (const name of RECORDINGS) {
    add(['decode', ...CODE], 'none', name);
    add(['decode', ...CODE, '--passes', '4'], 'none', name);
    add(['receive', ...CODE], 'empty.shelf', name);
    add(['receive', ...CODE, '--workers', '3', '--symbols', '3000000'], 'my.shelf', name);
  }
  for (const line of ['nrz-l', 'nrz-m']) {
    for (const g2 of ['inverted', 'plain']) add(['decode', '--line', line, '--g2', g2], 'none', 'cut');
  }
  for (const shelf of ['empty.shelf', 'small.shelf', 'none', 'damaged.shelf']) {
    add(['receive', '--input', 'frames'], shelf, 'frames');
  }
  for (const words of ['frames', 'packets', 'frames --symbols 5000', 'decode --input blocks']) {
    add(words.split(' '), 'none', 'frames');
  }
  for (const name of ['list', 'verify', 'render', 'show']) add(name === 'show' ? [name, '3'] : [name], 'damaged.shelf');
  for (const name of ['list', 'verify']) for (const shelf of ['none', 'garbage']) add([name], shelf);
  for (const words of ['20', '1099511627776', '1099511627777', '12 13']) add(['init', ...words.split(' ')], 'none');
  for (const wrong of ['0', '8', '16', '17']) add(['transmit', '0', '3', wrong, ...CODE]);
  add(['transmit', '5', '9', '0']);
  for (const form of ['symbols', 'blocks', 'frames']) add(['make', '3', '20', '5', '--output', form], 'none');
  for (const words of ['1 64 3', '1 64 16 --workers 2', '1 2000 0']) add(['trial', ...words.split(' ')], 'none');
  return found;
}
