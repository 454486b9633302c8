// The spectrum of complex samples, in decibels.

const SPECTRUM_PLACES = 512;
const MOST_SPECTRA = 16; // whose mean is told
const LEAST_POWER = 1e-12;
export const SPECTRUM_SAMPLES = SPECTRUM_PLACES * MOST_SPECTRA;

/**
 * Replaces complex numbers by their Fourier transform, in place. (Cooley and Tukey; as many as a power of two.)
 * @param {Float64Array} i
 * @param {Float64Array} q
 */
export function transform(i, q) {
  const count = i.length;
  for (let at = 1, other = 0; at < count; at += 1) {
    let bit = count >> 1;
    for (; other & bit; bit >>= 1) other ^= bit;
    other ^= bit;
    if (at < other) [i[at], i[other], q[at], q[other]] = [i[other], i[at], q[other], q[at]];
  }
  for (let half = 1; half < count; half *= 2) {
    for (let at = 0; at < half; at += 1) {
      const [c, s] = [Math.cos((-Math.PI * at) / half), Math.sin((-Math.PI * at) / half)];
      for (let near = at; near < count; near += 2 * half) {
        const far = near + half;
        const [real, imaginary] = [i[far] * c - q[far] * s, i[far] * s + q[far] * c];
        [i[far], q[far]] = [i[near] - real, q[near] - imaginary];
        [i[near], q[near]] = [i[near] + real, q[near] + imaginary];
      }
    }
  }
}

/**
 * The mean spectrum of samples in decibels, from the least frequency to the greatest, under a raised cosine.
 * @param {{i: Float64Array, q: Float64Array}} samples
 * @returns {Float32Array} none where there are too few samples
 */
export function spectrumOf(samples) {
  const count = SPECTRUM_PLACES;
  const powers = new Float64Array(count);
  const spectra = Math.floor(samples.i.length / count);
  if (!spectra) return new Float32Array(0);
  for (let from = 0; from < spectra * count; from += count) {
    const part = (/** @type {Float64Array} */ of) =>
      of.slice(from, from + count).map((it, at) => it * Math.sin((Math.PI * at) / count) ** 2);
    const [i, q] = [part(samples.i), part(samples.q)];
    transform(i, q);
    for (let at = 0; at < count; at += 1) powers[(at + count / 2) % count] += i[at] ** 2 + q[at] ** 2;
  }
  return Float32Array.from(powers, (it) => 10 * Math.log10(Math.max(LEAST_POWER, it / spectra / count)));
}
