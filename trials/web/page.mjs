// node page.mjs PAGE FOLDER SHOTS PROGRAM BROWSER..: the page in Chromium and in Firefox, from a disk and from a
// server. FOLDER has the files of files.py. Pictures of the page go to SHOTS. PARTS in the environment may name some.
import { spawn, spawnSync } from 'node:child_process';
import fs from 'node:fs';
import http from 'node:http';
import path from 'node:path';
import zlib from 'node:zlib';
import { Chromium, Firefox, pause } from './browsers.mjs';

const [page, folder, shots, program, ...names] = process.argv.slice(2);
const LONG_TIMES = Number(process.env.TIMES ?? 100); // how often the recording stands in the long one
const MOST_MEMORY = 16 << 20; // of the receiver's module
const MOST_BROWSER_MEMORY = 1 << 30; // more than of the empty page, with many large pictures
const LACKING = [140, 193, 328, 363, 389, 417]; // frames that are lost in the recording of files.py
const CODE = ['--line', 'nrz-m', '--g2', 'plain'];
const ALL = /^Done\. All 470 blocks of data \(frames\) were received, and they held 6 files\.$/;
const FORMS = ['unsigned', 'bits', 'packed', 's16le', 's16be', 'f32le', 'f32be', 'frames', 'cadu'];
const BRIDGE = new URL('../../packaging/web/live/bridge.py', import.meta.url).pathname;
const place = (name) => path.join(folder, name);
const url = `file://${page}`;
let checks = 0;

/** @param {unknown} holds @param {string} what */
function check(holds, what) {
  if (!holds) throw new Error(what);
  checks += 1;
}

const state = (browser) => browser.evaluate("document.getElementById('state').textContent");
const shownText = (browser, id) => browser.evaluate(`document.getElementById('${id}').textContent`);
const displayOf = (browser, id) =>
  browser.evaluate(`getComputedStyle(document.getElementById('${id}')).display`);
const countOf = (browser, selector) => browser.evaluate(`document.querySelectorAll('${selector}').length`);

/** Checks the words of the state, or of another element. */
async function says(browser, words, id = 'state') {
  const text = await shownText(browser, id);
  check(words.test(text), `${id}: ${text}`);
}

/** The pixels of a grey PNG whose rows aren't filtered. */
function pixelsOf(png) {
  const parts = [];
  for (let at = 8; at < png.length; at += 12 + png.readUInt32BE(at)) {
    const inside = png.subarray(at + 8, at + 8 + png.readUInt32BE(at));
    if (png.toString('latin1', at + 4, at + 8) === 'IDAT') parts.push(inside);
  }
  const [columns, lines, wide] = [png.readUInt32BE(16), png.readUInt32BE(20), png[24] / 8];
  const rows = zlib.inflateSync(Buffer.concat(parts));
  const row = columns * wide + 1;
  return Buffer.concat(Array.from({ length: lines }, (_, line) => rows.subarray(line * row + 1, (line + 1) * row)));
}

async function opened(browser, where = url) {
  await browser.open(where);
  await browser.until("!document.getElementById('sample').disabled");
}

/** Gives the page a file, and waits until all of it was shown. */
async function given(browser, file, seconds = 120) {
  await browser.evaluate('delete document.body.dataset.settled');
  await browser.evaluate("Object.assign(document.getElementById('state'), { textContent: '', className: '' })");
  await browser.giveFile('#file', file);
  const ended = "document.body.dataset.settled || document.getElementById('state').className === 'bad'";
  await browser.until(ended, seconds);
  await pause(100);
}

const earth = () => {
  const pgm = fs.readFileSync(place('earth.pgm'));
  return pgm.subarray(pgm.length - 640 * 640);
};

/** From README's recording to a saved picture in three clicks, from a disk. */
async function sample(browser) {
  await browser.click('#sample'); // 1
  await browser.until('document.body.dataset.settled');
  await says(browser, ALL);
  await browser.click('#pictures figcaption button'); // 2: Save as PNG
  const { name, bytes } = await browser.saved(/\.png$/);
  check(name === '20261129T170020Z-SAMPLE_EARTH_20261129170020_0.1.png', name);
  check(pixelsOf(bytes).equals(earth()), "the saved picture is the program's");
  await browser.until("document.getElementById('quality').dataset.isWhole === 'true'");
  await says(browser, /Of 470 blocks of data \(frames\) 0 were lost \(0 %\)\. .*32\.0 wrong bytes/, 'quality');
  await says(browser, /SAMPLE BULLETIN/, 'texts');
  await says(browser, /nrz-m, g2 plain: 244 of 244/, 'tries');
  check((await displayOf(browser, 'save-recording')) !== 'none', "the sample's recording can be saved");
  await browser.click('#save-recording');
  const recording = (await browser.saved(/\.soft$/)).bytes;
  check(recording.equals(fs.readFileSync(place('recording'))), "the sample's recording is README's");
}

/** From a file that was chosen to a saved picture. */
async function chosen(browser) {
  await given(browser, place('recording')); // 1 and 2: Choose a file, and the file
  await says(browser, ALL);
  await browser.click('#pictures figcaption button'); // 3: Save as PNG
  check(pixelsOf((await browser.saved(/\.png$/)).bytes).equals(earth()), "the saved picture is the program's");
  check((await displayOf(browser, 'save-recording')) === 'none', "a recording of one's own isn't offered as the sample");
}

/** The head of a WAV of two channels of unsigned bytes. */
function waveHead(rate, length) {
  const head = Buffer.alloc(44);
  const chunks = { RIFF: [0, length + 36], 'fmt ': [12, 16], data: [36, length] };
  for (const [name, [at, size]] of Object.entries(chunks)) head.writeUInt32LE(size, head.write(name, at) + at);
  head.write('WAVE', 8);
  [1, 2].forEach((it, at) => head.writeUInt16LE(it, 20 + 2 * at)); // whole numbers, two channels
  [rate, 2 * rate].forEach((it, at) => head.writeUInt32LE(it, 24 + 4 * at));
  [2, 8].forEach((it, at) => head.writeUInt16LE(it, 32 + 2 * at)); // bytes of a sample, bits of a number
  return head;
}

/** The samples of README's recording, by numpy; none where that is missing. */
function madeSamples() {
  const input = fs.readFileSync(place('recording'));
  const cwd = new URL('../../bench', import.meta.url).pathname;
  for (const python of ['python3', '/usr/bin/python3']) {
    const done = spawnSync(python, ['-B', '-m', 'demod.channel', 'u8'], { input, cwd, maxBuffer: 1 << 28 });
    if (done.status === 0) return done.stdout;
  }
  return null;
}

/** How many colours a canvas shows. */
const coloursOf = (browser, id) =>
  browser.evaluate(`(() => {
    const canvas = document.getElementById('${id}');
    const { data } = canvas.getContext('2d').getImageData(0, 0, canvas.width, canvas.height);
    return new Set(new Uint32Array(data.buffer)).size;
  })()`);

const LOCKED = /^A signal is received, \d(\.\d)? dB stronger than the noise .* Its carrier is [67],\d{3} Hz /;

/** A recording of samples, to the picture. (Drawn symbols come after its last frame, and one more is looked for.) */
async function demodulated(browser, name, fill = () => {}) {
  await given(browser, place(name), 300);
  await fill();
  await browser.until('document.body.dataset.settled', 300);
  await says(browser, /^Done\. 470 of 471 blocks of data \(frames\) were received; .* 6 files\.$/);
  await says(browser, /640 × 640/, 'pictures');
  await says(browser, LOCKED, 'radio-words');
  for (const id of ['radio-constellation', 'radio-spectrum']) check((await coloursOf(browser, id)) > 2, `${id}: empty`);
}

/** The sample as a radio's signal, in two clicks to a saved picture; then recordings of samples, and one of noise. */
async function radio(browser) {
  await browser.click('#sample-radio'); // 1
  await browser.until('document.body.dataset.settled', 300);
  await says(browser, ALL);
  await browser.click('#pictures figcaption button'); // 2: Save as PNG
  check(pixelsOf((await browser.saved(/\.png$/)).bytes).equals(earth()), "the saved picture is the program's");
  await browser.picture(path.join(shots, `${browser.name.toLowerCase()}-radio.png`));
  fs.copyFileSync(place('noise'), place('noise_2400000Hz.cu8'));
  await given(browser, place('noise_2400000Hz.cu8'));
  await says(browser, /^No signal was found in this recording\./);
  const made = madeSamples();
  if (!made) return 'no other recordings of samples (numpy is missing)';
  fs.writeFileSync(place('samples_2400000Hz.cu8'), made);
  fs.writeFileSync(place('samples.wav'), Buffer.concat([waveHead(2_400_000, made.length), made]));
  fs.writeFileSync(place('samples'), made);
  await demodulated(browser, 'samples_2400000Hz.cu8');
  await demodulated(browser, 'samples.wav');
  await demodulated(browser, 'samples', async () => {
    await says(browser, /^This seems to be a recording of the radio itself/);
    await browser.evaluate('delete document.body.dataset.settled');
    await browser.click('#radio-start');
  });
  return '';
}

/** What the picture at its full size shows at a place, from 0 to 1. */
const shownAt = (browser, x, y) =>
  browser.evaluate(`(() => {
    const canvas = document.getElementById('view-canvas');
    const { data } = canvas.getContext('2d').getImageData(${x} * canvas.width, ${y} * canvas.height, 1, 1);
    return [...data].join(' ');
  })()`);

/** Sets a control, as somebody who moves it. */
const set = (browser, id, value) =>
  browser.evaluate(`(() => {
    const it = document.getElementById('${id}');
    it[it.type === 'checkbox' ? 'checked' : 'value'] = ${JSON.stringify(value)};
    it.dispatchEvent(new Event('input'));
    it.dispatchEvent(new Event('change'));
  })()`);

/** Opens the first picture at its full size. */
async function openPicture(browser) {
  await browser.click('#pictures .thumb');
  await browser.until("/zoom/.test(document.getElementById('view-pixel').textContent)");
  await pause(300);
}

/** A picture at its full size: zoom, colours, lost lines, and saving as it is shown. */
async function viewing(browser) {
  await given(browser, place('lacking'));
  await openPicture(browser);
  const whole = await shownAt(browser, 0.5, 0.5);
  check(/^(\d+) \1 \1 255$/.test(whole), `the middle is grey: ${whole}`);
  await set(browser, 'view-colours', 'heat');
  await pause(300);
  const coloured = await shownAt(browser, 0.5, 0.5);
  check(!/^(\d+) \1 \1 255$/.test(coloured), `the middle is in colour: ${coloured}`);
  await browser.click('#view-reset');
  await set(browser, 'view-light', '100');
  await pause(300);
  check(parseInt(await shownAt(browser, 0.5, 0.5)) > parseInt(whole), 'it is lighter');
  await browser.click('#view-reset');
  const edge = await shownAt(browser, 0.01, 0.5);
  await browser.click('#view-larger');
  await browser.click('#view-larger');
  await browser.click('#view-larger');
  await pause(300);
  check((await shownAt(browser, 0.01, 0.5)) !== edge, 'a larger picture fills the screen');
  await browser.evaluate("document.getElementById('view-canvas').focus()");
  await browser.key('0', 48);
  await pause(300);
  check((await shownAt(browser, 0.01, 0.5)) === edge, 'the key 0 shows the whole picture');
  const orange = `(() => {
    const canvas = document.getElementById('view-canvas');
    const { data } = canvas.getContext('2d').getImageData(0, 0, canvas.width, canvas.height);
    return new Uint32Array(data.buffer).filter((it) => it === 0xff2a60ff).length;
  })()`;
  check((await browser.evaluate(orange)) === 0, 'nothing is hatched');
  await set(browser, 'view-lost', true);
  await pause(300);
  check((await browser.evaluate(orange)) > 1000, 'lost lines are hatched');
  await set(browser, 'view-titled', true);
  await browser.click('#view-save');
  const { name, bytes } = await browser.saved(/-titled\.png$/);
  check(bytes.readUInt32BE(16) === 640 && bytes.readUInt32BE(20) > 650, `${name} has a title below it`);
  await browser.key('Escape', 27);
  check(!(await browser.evaluate("document.getElementById('viewer').open")), 'the key Escape closes it');
}

/** What happens to a frame, beside the lines of the program's `decode`. */
async function layers(browser) {
  await given(browser, place('lacking'));
  await browser.until("document.getElementById('quality').dataset.isWhole === 'true'");
  const decoded = spawnSync(program, ['-', 'decode', ...CODE, '--passes', '4'], { input: fs.readFileSync(place('lacking')) });
  const lines = decoded.stdout.toString().split('\n');
  await browser.evaluate("document.getElementById('layers-box').open = true");
  const isShown = (number) =>
    `document.getElementById('layers-number').value === '${number}' && document.querySelector('#layers h3') !== null`;
  for (const number of [0, 137, 300]) {
    await set(browser, 'layers-number', number);
    await browser.until(isShown(number));
    const words = / restored (.*)$/.exec(lines[number])[1].replaceAll(' ', ', ');
    await says(browser, new RegExp(`Corrected in the four words: ${words} bytes\\.`), 'layers');
  }
  await set(browser, 'layers-number', 0);
  await browser.until(isShown(0));
  for (const number of LACKING) {
    check(/ lost \d$/.test(lines[number]), `frame ${number} is lost`);
    await browser.click('#layers-lost');
    await browser.until(isShown(number));
    await says(browser, /What was lost with it.*(Nothing: the frame was fill|Lines \d+ to \d+ of the picture .* are lost)/, 'layers');
  }
  await browser.click('#layers-next');
  await browser.until("/Its lines in the picture/.test(document.getElementById('layers').textContent)");
}

/** LRIT files that other programs saved, alone and in zips. */
async function files(browser) {
  const names = [0, 1, 2, 3, 4, 5].map((it) => place(`given${it}.lrit`));
  for (const chosen of [names, [place('given.zip')]]) {
    await given(browser, chosen);
    await says(browser, chosen.length > 1 ? /^6 LRIT files are open\.$/ : /^6 LRIT files are open\. One other file was left out\.$/);
    await says(browser, /640 × 640/, 'pictures');
    await says(browser, /SAMPLE BULLETIN/, 'texts');
    check((await displayOf(browser, 'save-shelf')) === 'none', 'they have no shelf');
    await browser.click('#pictures figcaption button');
    check(pixelsOf((await browser.saved(/\.png$/)).bytes).equals(earth()), "the picture is the program's");
    fs.rmSync(browser.downloads, { recursive: true });
    fs.mkdirSync(browser.downloads);
  }
  await given(browser, place('coded.lrit'));
  await says(browser, /This image can't be shown here\. It is coded, and the bounds of its packets are lost/, 'pictures');
  await given(browser, place('other.zip'));
  await says(browser, /^There is no LRIT or HRIT file in it\.$/);
}

/** The sample made worse: some frames are lost, and said to be. */
async function worse(browser) {
  await set(browser, 'lost', '12');
  await set(browser, 'noise', '60');
  await says(browser, /^Noise: 60 % of the signal$/, 'noise-label');
  await browser.click('#sample');
  await browser.until('document.body.dataset.settled');
  await says(browser, /^Done\. 458 of 470 blocks of data \(frames\) were received; 12 were too damaged\./);
}

/** A page with received files warns before it is closed, until they were saved; the sample can be had again. */
async function warning(browser) {
  if (browser.name !== 'Chromium') return '';
  const warned = async () => {
    browser.warnings.length = 0;
    await opened(browser);
    return browser.warnings.includes('beforeunload');
  };
  await browser.click('#sample');
  await browser.until('document.body.dataset.settled');
  check(!(await warned()), 'none for the sample');
  await given(browser, place('recording'));
  await browser.click('#save-shelf');
  await browser.saved(/\.shelf$/);
  check(!(await warned()), 'none after the shelf was saved');
  await given(browser, place('recording'));
  check(await warned(), 'one for what was received');
  return '';
}

/** Many large pictures: their memory, two of them compared, and all played. */
async function pictures(browser) {
  const before = browser.memory();
  const from = Date.now();
  await given(browser, place('pictures.shelf'), 300);
  const seconds = ((Date.now() - from) / 1000).toFixed(0);
  check((await countOf(browser, '#pictures figure')) === 40, 'forty pictures are listed');
  const first = await browser.evaluate("document.querySelector('#pictures figcaption').textContent");
  check(/09:45 UTC/.test(first), `the newest stands first: ${first}`);
  await browser.evaluate("document.getElementById('files-section').scrollIntoView()");
  await openPicture(browser);
  await set(browser, 'view-compare', '0');
  await browser.until("!document.getElementById('view-wipe-box').hidden");
  await pause(3000);
  const [left, right] = [await shownAt(browser, 0.49, 0.5), await shownAt(browser, 0.51, 0.5)];
  check(left !== right, `two pictures stand side by side: ${left}`);
  await set(browser, 'view-compare', '');
  await browser.click('#view-play');
  const title = "document.getElementById('viewer-title').textContent";
  const shown = await browser.evaluate(title);
  await browser.until(`${title} !== ${JSON.stringify(shown)}`, 120);
  const memory = browser.memory() - before;
  await browser.click('#view-play');
  check((await browser.evaluate(title)) === shown, 'the picture stands there again');
  check(memory < MOST_BROWSER_MEMORY, `${memory} bytes`);
  return `40 pictures of 5,424 columns in ${seconds} s with ${(memory / 1e6).toFixed(0)} MB`;
}

/** Images that lack packets are filled in, and captioned so; without the setting they don't appear. */
async function lacking(browser) {
  const recording = fs.readFileSync(place('lacking'));
  for (const mend of [[], ['--mend', '64']]) {
    const shelf = place(`lacking${mend.length}.shelf`);
    fs.rmSync(shelf, { force: true });
    spawnSync(program, [shelf, 'init', '1000000']);
    const { stdout } = spawnSync(program, [shelf, 'receive', ...CODE, ...mend], { input: recording });
    const lines = stdout.toString().split('\n').filter((line) => line.startsWith('shelved '));
    const fillers = lines.map((line) => Number(/ mended ([0-9]+)$/.exec(line)?.[1] ?? 0));
    await opened(browser);
    if (!mend.length) await browser.evaluate("document.getElementById('mend').checked = false");
    await given(browser, place('lacking'));
    check((await countOf(browser, '#files tr')) === lines.length, `${lines.length} files, ${mend.join(' ')}`);
    const sum = fillers.reduce((all, it) => all + it, 0);
    const words = mend.length ? `\\D${sum} of \\d+ packets were lost` : '^((?!were lost).)*$';
    await says(browser, new RegExp(words), 'pictures');
  }
  await browser.click('#pictures figcaption button');
  const { bytes } = await browser.saved(/-mended-[0-9]+\.png$/);
  const assembled = spawnSync(program, [place('lacking2.shelf'), 'assemble', '0', '6', '313', '1']).stdout;
  check(pixelsOf(bytes).equals(assembled.subarray(assembled.length - 640 * 640)), "the picture is the program's");
}

/** The shelf is saved, the program reads it, and the page opens it again. */
async function shelf(browser) {
  await browser.click('#sample');
  await browser.until('document.body.dataset.settled');
  await browser.click('#save-shelf');
  const saved = await browser.saved(/\.shelf$/);
  const kept = place(`kept-${browser.name}.shelf`);
  fs.writeFileSync(kept, saved.bytes);
  const verified = spawnSync(program, [kept, 'verify']);
  const wanted = [0, 1, 2, 3, 4, 5].map((it) => `file ${it} ok\n`).join('');
  check(verified.stdout.toString() === wanted, verified.stdout);
  for (let number = 0; number < 5; number += 1) {
    const extract = (it) => spawnSync(program, [it, 'extract', String(number)]).stdout;
    const [one, other] = [kept, place('sent.shelf')].map(extract);
    check(one.equals(other) && one.length > 0, `file ${number} is the one that was sent`);
  }
  await given(browser, kept);
  await says(browser, /^The shelf is open, and every file on it is intact\.$/);
  check((await countOf(browser, '#files tr')) === 6, 'six files are listed');
  check((await displayOf(browser, 'save-recording')) === 'none', 'a shelf has no recording to save');
  await given(browser, place('damaged.shelf'));
  await says(browser, /One of its files is damaged; the list below marks it\./);
  check((await countOf(browser, '#files tr.bad')) === 1, 'the damaged file is marked');
  await says(browser, /damaged: its checksum is wrong/, 'files');
  await given(browser, place('torn.shelf'));
  await browser.until('document.body.dataset.settled');
  await says(browser, /^This shelf breaks off, perhaps because it wasn't copied completely\. The \d files before that are shown\.$/);
  const count = await countOf(browser, '#files tr');
  check(count > 0 && (await state(browser)).includes(` ${count} files`), `${count} files of the torn shelf`);
  fs.rmSync(browser.downloads, { recursive: true });
  fs.mkdirSync(browser.downloads);
  await browser.click('#save-shelf');
  fs.writeFileSync(kept, (await browser.saved(/\.shelf$/)).bytes);
  check(spawnSync(program, [kept, 'verify']).status === 0, 'what stands before the break is saved as a shelf');
}

/** All files as one zip, which another program reads. */
async function zip(browser) {
  await given(browser, place('my.shelf'));
  await browser.click('#save-all');
  const saved = await browser.saved(/files.*\.zip$/);
  fs.writeFileSync(place('all.zip'), saved.bytes);
  const line = 'import sys, zipfile; z = zipfile.ZipFile(sys.argv[1]); print(z.testzip(), *z.namelist(), sep="\\n")';
  const listed = spawnSync('python3', ['-c', line, place('all.zip')]);
  const [bad, ...files] = listed.stdout.toString().trim().split('\n');
  check(bad === 'None', listed.stderr.toString());
  check(files.length === 2 && files.filter((it) => it.endsWith('.png')).length === 1, files.join(' '));
}

/** Recordings in other forms. */
async function forms(browser) {
  for (const form of FORMS) {
    await given(browser, place(`form.${form}`));
    await says(browser, /^Done\./);
    check((await countOf(browser, '#files tr')) >= 1, `${form}: files came`);
  }
}

const OTHERS = [
  ['noise', /^Nothing that this receiver knows was found in the file\./],
  ['none', /^The file is empty\.$/],
  ['part', /^Done\./],
  ['other.zip', /^There is no LRIT or HRIT file in it\.$/],
  ['other.jpeg', /^This is a JPEG picture, not a recording\.$/],
  ['other.pdf', /^This is a PDF document, not a recording\.$/],
  ['other.wav', /^This seems to be a recording of the radio itself/],
  ['weak', /^A signal is there \(signed bytes, nrz-m, g2 plain, 24\d frames\), but too weak: no frame could be restored\.$/],
];

/** What is said where nothing is found. */
async function others(browser) {
  for (const [name, words] of OTHERS) {
    await given(browser, place(name));
    await says(browser, words);
    const isBad = await browser.evaluate("document.getElementById('state').className === 'bad'");
    check(isBad === (name !== 'part'), `${name}: ${isBad}`);
  }
}

const NOTHING = /^Nothing was found with these settings\. Set both to “detect automatically”\.$/;
const SETTINGS = [
  ['recording', '', 'nrz-m plain', ALL],
  ['recording', 'signed', '', ALL],
  ['recording', 'f32le', '', NOTHING],
  ['recording', '', 'nrz-l inverted', NOTHING],
  ['recording', 'frames', '', NOTHING],
  ['recording', 'cadu', 'nrz-m plain', NOTHING],
  ['form.cadu', 'frames', '', NOTHING],
  ['form.cadu', '', 'nrz-m plain', /^Done\. The \d+ blocks of data \(frames\) of the recording held 6 files\.$/],
  ['form.s16le', '', 'nrz-m plain', /^Done\./],
  ['form.s16le', 's16le', '', /^Done\./],
];

/** What is set goes together with what is found. */
async function settings(browser) {
  for (const [name, form, code, words] of SETTINGS) {
    for (const [id, value] of Object.entries({ form, code })) {
      await browser.evaluate(`document.getElementById('${id}').value = '${value}'`);
    }
    await given(browser, place(name));
    await says(browser, words);
  }
}

/** Hostile files are shown as text, and nothing of them runs. */
async function hostile(browser) {
  await given(browser, place('hostile.shelf'));
  check((await browser.evaluate('document.title')) === 'Weather satellite receiver', 'no script of a file ran');
  check((await countOf(browser, '#results img[src=x], #results script, #results b')) === 0, 'there is no markup');
  await says(browser, /<img src=x/, 'texts');
  for (const words of [/zip is too large when it is unpacked/, /zip has too many files/, /zip can't be read/]) {
    await says(browser, words, 'files');
  }
  await says(browser, /This image can't be shown here\./, 'pictures');
  await given(browser, place('segments.shelf'), 400);
  await says(browser, /1 × 65535[^m]*$/, 'pictures');
  check((await countOf(browser, '#files tr')) <= 200, 'the table begins with a part');
}

/** Strips of JPEG are joined. */
async function strips(browser) {
  if (!fs.existsSync(place('strips.shelf'))) return 'strips of JPEG (Pillow is missing)';
  await given(browser, place('strips.shelf'));
  await says(browser, /64 × 48/, 'pictures');
  const context = "document.querySelector('#pictures canvas').getContext('2d')";
  for (const [at, grey] of [[8, 60], [24, 120], [40, 180]]) {
    const found = await browser.evaluate(`${context}.getImageData(9, ${at}, 1, 1).data[0]`);
    check(Math.abs(found - grey) <= 2, `${found} in line ${at}`);
  }
  return '';
}

/** A long recording: its memory, its time, files as they come, and a stop. */
async function long(browser) {
  const recording = fs.readFileSync(place('recording'));
  fs.rmSync(place('long'), { force: true });
  for (let time = 0; time < LONG_TIMES; time += 1) fs.appendFileSync(place('long'), recording);
  const start = Date.now();
  await given(browser, place('long'), 600);
  const seconds = ((Date.now() - start) / 1000).toFixed(0);
  const text = await state(browser);
  check(new RegExp(`held ${6 * LONG_TIMES} files`).test(text), text);
  const memory = Number(await browser.evaluate('document.body.dataset.memory'));
  check(memory > 0 && memory < MOST_MEMORY, `the module has ${memory} bytes`);
  await browser.evaluate('delete document.body.dataset.settled');
  await browser.giveFile('#file', place('long'));
  await browser.until("document.querySelectorAll('#files tr').length > 3", 120);
  await says(browser, /[0-9]+ %(, about .* left)?\. Files so far: [0-9]+/, 'time');
  await browser.click('#stop');
  await browser.until('document.body.dataset.settled');
  await says(browser, /^Stopped/);
  fs.rmSync(browser.downloads, { recursive: true });
  fs.mkdirSync(browser.downloads);
  await browser.click('#save-shelf');
  fs.writeFileSync(place('stopped.shelf'), (await browser.saved(/\.shelf$/)).bytes);
  const lines = spawnSync(program, [place('stopped.shelf'), 'verify']).stdout.toString().trim().split('\n');
  check(lines.length > 3 && lines.every((it) => / ok$/.test(it)), 'the shelf that was left is whole');
  const size = ((recording.length * LONG_TIMES) / 1e6).toFixed(0);
  return `${size} MB in ${seconds} s with ${(memory / 1e6).toFixed(1)} MB of the module's memory`;
}

const ASKING = [
  'fetch("/x")',
  'new Promise((go, no) => Object.assign(new Image(), { onload: go, onerror: no, src: "/y.png" }))',
  'new Promise((go, no) => Object.assign(new WebSocket("ws://" + location.host), { onopen: go, onerror: no }))',
];

/** From a server: one request, and none by what is in the page. */
async function served(browser) {
  const asked = [];
  const server = http.createServer((ask, answer) => {
    asked.push(ask.url);
    answer.writeHead(ask.url === '/receiver.html' ? 200 : 404, { 'Content-Type': 'text/html' });
    answer.end(ask.url === '/receiver.html' ? fs.readFileSync(page) : '');
  });
  await new Promise((go) => server.listen(0, '127.0.0.1', go));
  const base = `http://127.0.0.1:${server.address().port}`;
  try {
    await opened(browser, `${base}/receiver.html`);
    await browser.click('#sample');
    await browser.until('document.body.dataset.settled');
    await says(browser, ALL);
    for (const it of ASKING) {
      const line = `(async () => { try { await ${it}; return 'came'; } catch { return 'refused'; } })()`;
      check((await browser.evaluate(line)) === 'refused', `${it} came`);
    }
    await pause(500);
    check(asked.every((it) => it === '/receiver.html' || it === '/favicon.ico'), asked.join(' '));
    return asked.join(' ');
  } finally {
    server.close();
  }
}

/** The status of an answer to a request that isn't a browser's. */
function statusOf(where, path, headers = {}) {
  const { hostname, port } = new URL(where);
  return new Promise((go, no) => {
    const ask = http.get({ hostname, port, path, headers }, (answer) => {
      answer.resume();
      go(answer.statusCode);
    });
    ask.on('error', no);
    ask.on('upgrade', (answer, socket) => {
      socket.destroy();
      go(answer.statusCode);
    });
  });
}

/** The shelf of the program, and the last line that it puts, where it receives the recording as the live page does. */
function programsLive(recording) {
  const shelf = place('live.shelf');
  fs.rmSync(shelf, { force: true });
  spawnSync(program, [shelf, 'init', String(2 ** 40)]);
  const done = spawnSync(program, [shelf, 'receive', ...CODE, '--passes', '4', '--mend', '64'], { input: recording });
  return { shelf: fs.readFileSync(shelf), last: done.stdout.toString().trim().split('\n').at(-1) };
}

/** The example of a live source: files come while it is silent in between, and the shelf is the program's. */
async function live(browser) {
  const recording = fs.readFileSync(place('recording'));
  const bridge = spawn('python3', [BRIDGE, page, '--port', '0'], { stdio: ['pipe', 'pipe', 'inherit'] });
  try {
    const where = await new Promise((go, no) => {
      bridge.stdout.once('data', (text) => go(text.toString().trim()));
      bridge.once('exit', () => no(new Error('the bridge ended')));
    });
    const upgrade = { Upgrade: 'websocket', Connection: 'Upgrade', 'Sec-WebSocket-Key': 'AAAAAAAAAAAAAAAAAAAAAA==' };
    check((await statusOf(where, '/symbols', { ...upgrade, Origin: 'http://example.com' })) === 403, 'another site');
    check((await statusOf(where, '/symbols')) === 403, 'no WebSocket');
    check((await statusOf(where, '/live/../bundle.py')) === 404, 'what is not served');
    await browser.open(where);
    const isListening = "/^Listening/.test(document.getElementById('state').textContent)";
    const listened = async () => {
      await browser.until("!document.getElementById('listen').disabled");
      await browser.click('#listen');
      await browser.until(isListening);
      bridge.stdin.write(recording.subarray(0, recording.length / 2));
      await browser.until("document.querySelectorAll('#files tr').length >= 2");
      check(await browser.evaluate(isListening), 'files come while the source is silent');
    };
    await listened();
    await browser.click('#stop');
    await browser.until('document.body.dataset.settled');
    await says(browser, /^The source has ended: symbols \d+ .* stop end$/);
    await listened();
    bridge.stdin.end(recording.subarray(recording.length / 2));
    await browser.until('document.body.dataset.settled');
    const wanted = programsLive(recording);
    check((await state(browser)) === `The source has ended: ${wanted.last}`, await state(browser));
    check((await countOf(browser, '#files tr')) === 6, 'all files came');
    await says(browser, /640 × 640/, 'pictures');
    await browser.picture(path.join(shots, `${browser.name.toLowerCase()}-live.png`));
    await browser.click('#save-shelf');
    check((await browser.saved(/\.shelf$/)).bytes.equals(wanted.shelf), "the shelf is the program's");
  } finally {
    bridge.kill();
  }
}

/** The host of the modules, as one script, with a function that runs commands over files of an element. */
function hostScript() {
  const inside = fs.readFileSync(new URL('inside.js', import.meta.url), 'utf8');
  const packaging = new URL('../../packaging/web/', import.meta.url).pathname;
  const both = "bundle.script('station.mjs', seen) + bundle.script('devices.mjs', seen)";
  const line = `import bundle; seen = set(); print(${both})`;
  const done = spawnSync('python3', ['-c', line], { env: { ...process.env, PYTHONPATH: packaging } });
  if (done.status !== 0) throw new Error(done.stderr.toString());
  return `(() => { ${done.stdout}\n${inside} })()`;
}

/** Every command that was compared in Node, by both modules within the browser. */
async function commands(browser) {
  if (browser.name !== 'Chromium') return '';
  const answers = JSON.parse(fs.readFileSync(place('answers.json'), 'utf8'));
  const made = "Object.assign(document.createElement('input'), { type: 'file', multiple: true, id: 'lent-files' })";
  await browser.evaluate(`document.body.append(${made})`);
  const files = [...new Set(answers.flatMap((it) => [it.input, it.shelf]))];
  await browser.giveFile('#lent-files', files.map(place));
  await browser.evaluate(hostScript());
  for (const { words, input, shelf, ...wanted } of answers) {
    const found = JSON.parse(await browser.evaluate(`window.runBoth(${JSON.stringify({ words, input, shelf })})`));
    for (const [name, answer] of Object.entries(found)) {
      const isSame = Object.entries(wanted).every(([key, value]) => answer[key] === value);
      const both = `${JSON.stringify(answer)}, not ${JSON.stringify(wanted)}`;
      check(isSame, `${name}: ${words.join(' ')} of ${input} and ${shelf}: ${both}`);
    }
  }
  return `${answers.length} commands by lr_run and lr_live`;
}

/** Opens the first picture, in any language. */
async function openPictureIn(browser) {
  await browser.click('#pictures .thumb');
  await browser.until("!document.getElementById('view-lost').disabled || document.getElementById('viewer').open");
  await pause(1000);
}

/** What is seen on screens of each kind, and in each language. */
async function screens(browser) {
  const wide = { width: 1400, height: 1500 };
  const languages = { german: 'de', spanish: 'es', french: 'fr' };
  const others = Object.entries(languages).map(([name, language]) => [name, { ...wide, language }]);
  const phone = { width: 390, height: 844, isPhone: true };
  const kinds = { wide, phone, dark: { ...wide, isDark: true }, ...Object.fromEntries(others) };
  for (const [name, kind] of Object.entries(kinds)) {
    await browser.screen(kind);
    await opened(browser);
    await browser.click('#sample');
    await browser.until('document.body.dataset.settled');
    await browser.until("document.getElementById('quality').dataset.isWhole === 'true'");
    await pause(300);
    const shoot = (what) => browser.picture(path.join(shots, `${browser.name.toLowerCase()}-${name}${what}.png`));
    await shoot('');
    await browser.evaluate("document.getElementById('layers-box').open = true");
    await browser.until("document.querySelector('#layers h3') !== null");
    await browser.evaluate("document.getElementById('layers-section').scrollIntoView()");
    await pause(300);
    await shoot('-layers');
    await openPictureIn(browser);
    await shoot('-viewer');
    await browser.click('#view-close');
    const root = 'document.documentElement';
    const isDark = await browser.evaluate("matchMedia('(prefers-color-scheme: dark)').matches");
    check(isDark === Boolean(kind.isDark), `${name}: dark is ${isDark}`);
    const language = await browser.evaluate('document.documentElement.lang');
    check(language === (kind.language ?? 'en'), `${name}: the language is ${language}`);
    const overflow = await browser.evaluate(`${root}.scrollWidth - ${root}.clientWidth`);
    check(overflow <= 0, `${name}: the page is ${overflow} pixels too wide`);
  }
  await browser.screen(wide);
}

/** By the keyboard alone; and in Chromium, what a screen reader gets. */
async function keyboard(browser) {
  for (let step = 0; step < 3; step += 1) await browser.key('Tab', 9); // past the link to the results, and the language
  const focused = await browser.evaluate('document.activeElement.id');
  check(focused === 'sample', focused);
  await browser.key('Enter', 13);
  await browser.until('document.body.dataset.settled');
  if (browser.name !== 'Chromium') return;
  const nodes = await browser.accessibility();
  const named = ['button', 'link', 'combobox', 'image', 'progressbar'];
  const nameless = nodes.filter((it) => !it.ignored && named.includes(it.role?.value) && !it.name?.value);
  check(nameless.length === 0, `nameless: ${nameless.map((it) => it.role.value).join(' ')}`);
  check(nodes.some((it) => it.role?.value === 'status'), 'there is a live region');
  const headings = nodes.filter((it) => it.role?.value === 'heading').map((it) => it.name.value);
  const wanted = ['Weather satellite receiver', 'Pictures', 'Texts', 'All files', 'Status'];
  check(wanted.every((it) => headings.includes(it)), headings.join(', '));
}

const kinds = { chromium: Chromium, firefox: Firefox };
const told = [];
for (const name of names) {
  const browser = await kinds[name].start();
  const isChromium = name === 'chromium';
  try {
    const shown = [sample, chosen, radio, worse, viewing, layers, lacking, shelf, files, zip, forms, others, settings];
    const all = [commands, ...shown, hostile, strips, screens, keyboard, warning, pictures, served, live, long];
    const parts = all.filter((it) => !process.env.PARTS || process.env.PARTS.split(' ').includes(it.name));
    for (const part of parts) {
      fs.rmSync(browser.downloads, { recursive: true });
      fs.mkdirSync(browser.downloads);
      try {
        if (part !== served && part !== live) await opened(browser);
        const said = await part(browser);
        if (said) told.push(`${browser.name}: ${part.name}: ${said}`);
      } catch (fault) {
        throw new Error(`${browser.version}, ${part.name}: ${fault.message}`);
      }
    }
    if (isChromium) {
      const outside = browser.requests.filter((it) => !/^(file|blob|data):|^http:\/\/127\.0\.0\.1:/.test(it));
      check(outside.length === 0, `requests: ${outside.join(' ')}`);
    }
    told.push(`${browser.version}`);
  } finally {
    await browser.close();
  }
}
console.log(`${checks} checks: ${told.join('; ')}`);
