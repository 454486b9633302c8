// What a signal looks like, on canvases: the constellation of its symbols, and its spectrum.

const MOST_POINT = 96; // of a symbol that is drawn; a clean one has 32
const POINT_SIZE = 2; // pixels
const [SPECTRUM_ABOVE, SPECTRUM_BELOW] = [3, 3]; // decibels that are left free
const LEAST_RANGE = 20; // decibels from the bottom to the top

/** @param {HTMLCanvasElement} canvas @param {string} name */
const themeColour = (canvas, name) => getComputedStyle(canvas).getPropertyValue(name).trim();

/**
 * An empty canvas with lines through its middle.
 * @param {HTMLCanvasElement} canvas
 * @param {boolean} isCrossed
 */
function emptied(canvas, isCrossed) {
  const { width, height } = canvas;
  const context = /** @type {CanvasRenderingContext2D} */ (canvas.getContext('2d'));
  context.fillStyle = themeColour(canvas, '--box');
  context.fillRect(0, 0, width, height);
  context.fillStyle = themeColour(canvas, '--line');
  context.fillRect(width / 2, 0, 1, height);
  if (isCrossed) context.fillRect(0, height / 2, width, 1);
  return context;
}

/**
 * @param {HTMLCanvasElement} canvas
 * @param {Int8Array} points pairs
 */
export function drawConstellation(canvas, points) {
  const context = emptied(canvas, true);
  const { width, height } = canvas;
  context.fillStyle = themeColour(canvas, '--accent');
  for (let at = 0; at + 1 < points.length; at += 2) {
    const x = ((points[at] / MOST_POINT + 1) * width) / 2;
    const y = ((1 - points[at + 1] / MOST_POINT) * height) / 2;
    context.fillRect(x - POINT_SIZE / 2, y - POINT_SIZE / 2, POINT_SIZE, POINT_SIZE);
  }
}

/**
 * @param {HTMLCanvasElement} canvas
 * @param {Float32Array} spectrum decibels
 */
export function drawSpectrum(canvas, spectrum) {
  if (!spectrum.length) return;
  const context = emptied(canvas, false);
  const { width, height } = canvas;
  const top = Math.max(...spectrum) + SPECTRUM_ABOVE;
  const range = Math.max(LEAST_RANGE, top - Math.min(...spectrum) + SPECTRUM_BELOW);
  context.strokeStyle = themeColour(canvas, '--accent');
  context.beginPath();
  spectrum.forEach((it, at) => context.lineTo(((at + 0.5) * width) / spectrum.length, ((top - it) * height) / range));
  context.stroke();
}
