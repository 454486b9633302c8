// node --experimental-wasm-memory64 same.mjs PROGRAM FOLDER MODULES: every command of cases.mjs, and FOLDER's drawn
// recordings, by the program over files, by lr_run over bytes, and by lr_live over devices: the status, what is put,
// the line on why it ended, and the bytes of the shelf. Then memory is refused at each block in turn.
import { spawnSync } from 'node:child_process';
import { createHash } from 'node:crypto';
import fs from 'node:fs';
import path from 'node:path';
import { BytesInput, MemoryShelf } from '../../packaging/web/page/devices.mjs';
import { joined } from '../../packaging/web/page/zip.mjs';
import { NO_MEMORY, Station } from '../../packaging/web/page/station.mjs';
import { cases } from './cases.mjs';

const [program, folder, modules] = process.argv.slice(2);
const MOST_OUT = 1 << 28;
const NO_MEMORY_STATUS = 9;
const MOST_BLOCKS = 100_000;
const CODE = ['--line', 'nrz-m', '--g2', 'plain'];

const file = (name) => new Uint8Array(fs.readFileSync(path.join(folder, name)));
const station = (name) => new Station(new WebAssembly.Module(fs.readFileSync(path.join(modules, `${name}.wasm`))));
const sum = (bytes) => createHash('sha256').update(bytes).digest('hex');
const equal = (one, other) => Buffer.compare(Buffer.from(one), Buffer.from(other)) === 0;

/** What the program answers. */
function programs({ words, input, shelf }) {
  const place = path.join(folder, 'program.shelf');
  fs.writeFileSync(place, file(shelf));
  const done = spawnSync(program, [place, ...words], { input: file(input), maxBuffer: MOST_OUT });
  return { status: done.status, out: done.stdout, err: done.stderr.toString(), shelf: fs.readFileSync(place) };
}

/** What lr_live answers. */
function lives(station, { words, input, shelf }) {
  const outputs = { 1: [], 2: [] };
  const kept = new MemoryShelf(file(shelf));
  const put = (output, bytes) => outputs[output].push(bytes);
  const devices = { input: new BytesInput(file(input)), shelf: kept, put };
  const status = station.live(words, devices);
  return { status, out: joined(outputs[1]), err: new TextDecoder().decode(joined(outputs[2])), shelf: kept.all() };
}

/** How an answer isn't the program's, in words; nothing where it is. */
function differs(answer, wanted) {
  if (answer.status !== wanted.status) return `status ${answer.status}, not ${wanted.status}`;
  if (!equal(answer.out, wanted.out)) return `put ${answer.out.length} bytes, not those ${wanted.out.length}`;
  if (answer.err !== wanted.err) return `told ${JSON.stringify(answer.err)}, not ${JSON.stringify(wanted.err)}`;
  return equal(answer.shelf, wanted.shelf) ? '' : 'left another shelf';
}

const [run, live] = [station('lr_run'), station('lr_live')];
const drawn = fs.readdirSync(folder).filter((it) => it.startsWith('drawn'));
const all = [...cases(), ...drawn.map((input) => ({ words: ['receive', ...CODE], input, shelf: 'empty.shelf' }))];
let faults = 0;
const answers = [];
for (const one of all) {
  const wanted = programs(one);
  answers.push({ ...one, status: wanted.status, out: sum(wanted.out), err: wanted.err, after: sum(wanted.shelf) });
  const over = { input: file(one.input), shelf: file(one.shelf) };
  const ways = { lr_run: run.run(one.words, over), lr_live: lives(live, one) };
  for (const [name, answer] of Object.entries(ways)) {
    const fault = differs(answer, wanted);
    if (!fault) continue;
    faults += 1;
    console.log(`${name}: ${one.words.join(' ')} of ${one.input} and ${one.shelf}: ${fault}`);
  }
}
fs.writeFileSync(path.join(folder, 'answers.json'), JSON.stringify(answers)); // (for the browsers)
if (run.heap.used || live.heap.used) throw new Error('blocks are taken still');

/** Refuses the n-th block, the first one that the module asks for being 0, for each n that is asked for. */
function refuse(name, call) {
  for (let place = 0; place < MOST_BLOCKS; place += 1) {
    const it = station(name);
    const { heap } = it;
    let asked = -1;
    const { call: called } = it;
    it.call = (...words) => ((asked = 0), called.apply(it, words));
    const { take } = heap;
    heap.take = (bytes) => (asked >= 0 && asked++ === place ? 0 : take.call(heap, bytes));
    const answer = call(it);
    if (heap.used) throw new Error(`${name}: a block is left where block ${place} was refused`);
    if (asked <= place) return place;
    const { status, err } = answer;
    const isSaid = status === NO_MEMORY || (status === NO_MEMORY_STATUS && err === 'station: no memory\n');
    if (!isSaid && status !== 0) throw new Error(`${name}: block ${place} refused: ${status} ${err}`);
  }
  throw new Error('so many blocks are asked for');
}
const small = { words: ['receive', ...CODE], input: 'part', shelf: 'empty.shelf' };
const blocks = [
  refuse('lr_run', (it) => it.run(small.words, { input: file(small.input), shelf: file(small.shelf) })),
  refuse('lr_live', (it) => lives(it, small)),
];
const ways = `${2 * all.length - faults} as the program, ${faults} not`;
console.log(`${all.length} commands, ${drawn.length} of them over drawn recordings, by lr_run and lr_live: ${ways}`);
console.log(`memory was refused at each of ${blocks.join(' and ')} blocks`);
process.exit(faults ? 1 : 0);
