// How pictures are shown: colours, zoom, lost parts; and the sample made worse.
import assert from 'node:assert';
import { spawnSync } from 'node:child_process';
import test from 'node:test';
import { PLAIN, TABLES, tableOf, tinting } from '../page/colours.mjs';
import { worsened } from '../page/noise.mjs';
import { centred, fitting, hatch, paint, zoomed } from '../page/paint.mjs';
import { seriesOf } from '../page/names.mjs';

const TOOLS = new URL('../../../tools', import.meta.url).pathname;
const grey = (level) => (0xff000000 | (level * 0x10101)) >>> 0;
const seen = (columns, lines, pixels, more = {}) =>
  ({ columns, lines, step: 1, bits: 8, lost: [], pixels: Uint8Array.from(pixels), ...more });

/** What a screen shows. */
function painted(width, height, picture, look, tint = PLAIN, from = 0, to = width) {
  const words = new Uint32Array(width * height);
  paint({ width, height, words }, picture, look, tint, from, to);
  return [...words];
}

test('the tables of colours are those of the tool', () => {
  const tables = '[[part for it in colours.table_of(name) for part in it] for name in colours.TABLES]';
  const line = `from gomtasil import colours; print(${tables})`;
  const { stdout } = spawnSync('python3', ['-c', line], { env: { ...process.env, PYTHONPATH: TOOLS } });
  const wanted = JSON.parse(stdout.toString());
  assert.deepEqual(TABLES, ['grey', 'ir', 'wv', 'heat']);
  for (const [place, name] of TABLES.slice(1).entries()) {
    const table = [...tableOf({ ...PLAIN, table: name })];
    const found = table.flatMap((it) => [it & 255, (it >> 8) & 255, (it >> 16) & 255]);
    const apart = found.map((it, at) => Math.abs(it - wanted[place][at]));
    assert.ok(Math.max(...apart) <= 1, `${name}: ${Math.max(...apart)}`); // (they round halves in their own ways)
  }
});

test('light and contrast', () => {
  assert.deepEqual([...tableOf(PLAIN)], Array.from({ length: 256 }, (_, it) => grey(it)));
  const levels = (tint, most) => [...tableOf({ ...PLAIN, ...tint }, most)].map((it) => it & 255);
  assert.ok(levels({ light: 100 }).every((it, at) => it >= at));
  const steep = levels({ contrast: 50 });
  assert.deepEqual([steep[64], steep[128], steep[192]], [1, 129, 255]);
  const tenBits = levels({}, 1023);
  assert.deepEqual([0, 341, 682, 1023].map((it) => tenBits[it]), [0, 85, 170, 255]);
  assert.equal(tinting(PLAIN)(0xff102030), 0xff102030, 'a picture in colour stays as it was sent');
  assert.equal(tinting({ ...PLAIN, table: 'ir' })(0xff000000), tableOf({ ...PLAIN, table: 'ir' })[0]);
});

test('a picture at its own size, enlarged, and made smaller', () => {
  const picture = seen(2, 2, [0, 100, 200, 40]);
  assert.deepEqual(painted(2, 2, picture, { x: 0, y: 0, scale: 1 }), [0, 100, 200, 40].map(grey));
  assert.deepEqual(painted(4, 1, picture, { x: 0, y: 0, scale: 2 }), [0, 0, 100, 100].map(grey));
  assert.deepEqual(painted(1, 1, picture, { x: 0, y: 0, scale: 0.5 }), [grey(85)], 'the mean');
  const beside = painted(3, 1, picture, { x: -1, y: 1, scale: 1 });
  assert.deepEqual(beside, [0, grey(200), grey(40)], 'nothing stands outside');
  assert.deepEqual(painted(3, 1, seen(3, 1, [1, 2, 3]), { x: 0, y: 0, scale: 1 }, PLAIN, 1, 2), [0, grey(2), 0]);
});

test('ten bits, every other pixel, and colours', () => {
  const wide = seen(3, 1, [0, 0, 3, 255], { bits: 10, step: 2 });
  assert.deepEqual(painted(3, 1, wide, { x: 0, y: 0, scale: 1 }), [0, 0, 255].map(grey));
  const coloured = { columns: 1, lines: 1, step: 1, bits: 8, lost: [], colours: Uint32Array.of(0xff112233) };
  assert.deepEqual(painted(1, 1, coloured, { x: 0, y: 0, scale: 1 }), [0xff112233]);
});

test('lost parts are hatched, and nothing else is', () => {
  const picture = seen(40, 40, new Array(1600).fill(9), { lost: [{ left: 0, top: 10, columns: 40, lines: 5 }] });
  const screen = { width: 40, height: 40, words: new Uint32Array(1600) };
  hatch(screen, picture, { x: 0, y: 0, scale: 1 });
  const lines = Array.from({ length: 40 }, (_, line) => screen.words.subarray(40 * line, 40 * line + 40).some(Boolean));
  assert.deepEqual(lines.flatMap((it, line) => (it ? [line] : [])), [10, 11, 12, 13, 14]);
});

test('zoom keeps the place below the pointer, and a picture never leaves the screen', () => {
  const [screen, picture] = [{ width: 100, height: 50 }, { columns: 200, lines: 200 }];
  assert.deepEqual(fitting(screen, picture), { x: -100, y: 0, scale: 0.25 });
  const look = zoomed({ x: 10, y: 20, scale: 1 }, 4, 40, 8);
  assert.deepEqual([look.x + 40 / 4, look.y + 8 / 4], [50, 28]);
  assert.deepEqual(centred(screen, picture, { x: -5, y: 190, scale: 1 }), { x: 0, y: 150, scale: 1 });
});

test('the channel that names share', () => {
  const abi = (time) => `OR_ABI-L2-CMIPF-M6C13_G16_s${time}_e${time}_c${time}.lrit`;
  assert.equal(seriesOf(abi('20230011200205')), seriesOf(abi('20230011210205')));
  assert.notEqual(seriesOf(abi('20230011200205')), seriesOf(abi('20230011200205').replace('C13', 'C02')));
  assert.notEqual(seriesOf('IMG_FD_001_IR105_20230101_000006_01'), seriesOf('IMG_FD_001_IR112_20230101_000006_01'));
});

test('noise and lost frames: the same for one seed, and of the strength that is said', () => {
  const clean = Uint8Array.from({ length: 3 * 16384 }, (_, at) => (at % 3 ? 64 : 192));
  assert.equal(worsened(clean, { noise: 0, lost: 0, seed: 1 }), clean);
  const noisy = new Int8Array(worsened(clean, { noise: 80, lost: 0, seed: 1 }).buffer);
  assert.deepEqual(noisy, new Int8Array(worsened(clean, { noise: 80, lost: 0, seed: 1 }).buffer));
  const errors = Array.from(noisy, (it, at) => it * (at % 3 ? 1 : -1) - 32);
  const deviation = Math.sqrt(errors.reduce((sum, it) => sum + it * it, 0) / errors.length);
  assert.ok(Math.abs(deviation / 32 - 0.8) < 0.02, `${deviation}`);
  const lost = worsened(clean, { noise: 0, lost: 1, seed: 2 });
  const frames = [0, 1, 2].map((it) => lost.subarray(it * 16384, (it + 1) * 16384));
  const changed = frames.map((frame) => frame.some((it) => it !== 64 && it !== 192));
  assert.equal(changed.filter(Boolean).length, 1);
});
