// Names of files that are saved.

const MOST_NAME_CHARACTERS = 150;

/**
 * A name that stays in its folder and is no option. It may be empty.
 * @param {string} name
 * @returns {string}
 */
export function safe(name) {
  return name
    .replace(/[^A-Za-z0-9._-]/g, '_')
    .replace(/^[.-]/, '_')
    .slice(0, MOST_NAME_CHARACTERS);
}

/**
 * The name itself, or with a number in front of it that makes it another one than these.
 * @param {string} name
 * @param {Set<string>} names
 * @returns {string}
 */
export function unused(name, names) {
  if (!names.has(name)) return name;
  for (let place = 2; ; place += 1) {
    if (!names.has(`${place}-${name}`)) return `${place}-${name}`;
  }
}

/**
 * A time in a name, as 20261129T170020Z.
 * @param {Date | null} when
 * @returns {string}
 */
export function stampName(when) {
  return when ? `${when.toISOString().replace(/[-:]|\.\d+/g, '')}-` : '';
}

/**
 * What the names of pictures of one channel share: a name without times, and without the number at its end.
 * @param {string} name
 * @returns {string}
 */
export function seriesOf(name) {
  return name.replace(/\.[A-Za-z]+$/, '').replace(/[0-9]{6,}/g, '').replace(/[_-]?[0-9]+$/, '');
}
