// Elements of the page. What comes from a recording is put in as text alone, never as markup.

/**
 * An element of the page by its id.
 * @param {string} id
 * @returns {any}
 */
export function at(id) {
  return document.getElementById(id);
}

/**
 * A new element with some properties and what is in it.
 * @param {string} name
 * @param {Record<string, unknown>} [properties]
 * @param {...(Node | string)} inside
 * @returns {any}
 */
export function element(name, properties = {}, ...inside) {
  const it = Object.assign(document.createElement(name), properties);
  it.append(...inside);
  return it;
}

/**
 * A button with a name of its own for screen readers.
 * @param {string} text
 * @param {string} label
 * @param {() => void} click
 */
export function button(text, label, click) {
  const it = element('button', { type: 'button', textContent: text, onclick: click });
  it.setAttribute('aria-label', label);
  return it;
}

/**
 * Saves bytes as a file.
 * @param {string} name
 * @param {BlobPart[]} parts
 * @param {string} type
 */
export function save(name, parts, type) {
  const url = URL.createObjectURL(new Blob(parts, { type }));
  const link = element('a', { href: url, download: name, hidden: true });
  document.body.append(link);
  link.click();
  link.remove();
  setTimeout(() => URL.revokeObjectURL(url), 60_000);
}
