// The Worker: one with `lr_live` receives, one with `lr_radio` demodulates, and one with `lr_run` and `lr_live` keeps
// the shelf.
import { demodulate, modulate } from './demodulate.mjs';
import { Keeper } from './keeper.mjs';
import { judge, receive } from './receiver.mjs';
import { Station } from './station.mjs';

/**
 * @typedef {import('./messages.mjs').Task | import('./demodulate.mjs').RadioTask} Task
 * @typedef {import('./messages.mjs').Told | import('./demodulate.mjs').RadioTold} Told
 */

/** @type {Station} */
let station;
/** @type {WebAssembly.Module} */
let live;
/** @type {Keeper} */
let keeper;

/** @param {Told} message */
const tell = (message) => postMessage(message);

/**
 * Hears what becomes of the shelf of a reception.
 * @param {import('./messages.mjs').Keep} task
 */
function keep({ port, file, found }) {
  keeper.begin();
  keeper.record(file, found);
  const { run } = keeper;
  port.onmessage = ({ data }) => {
    if (keeper.run !== run) return;
    if (data.kind === 'end') keeper.end();
    else keeper.change(data);
  };
}

/** @type {{[Kind in Task['kind']]: (task: Extract<Task, {kind: Kind}>) => unknown}} */
const TASKS = {
  load: (given) => {
    station = new Station(given.module);
    live = given.live;
    keeper = new Keeper(station, tell);
  },
  which: ({ file, chosen }) => keeper.which(file, chosen),
  transmit: (sample) => keeper.transmit(sample),
  receive: ({ file, found, port }) => {
    receive(station, file, found, (change) => port.postMessage(change), tell);
    port.postMessage({ kind: 'end' });
  },
  judge: ({ file, found }) => judge(station, file, found, tell),
  keep,
  windows: ({ windows }) => keeper.windows.push(...windows),
  layers: ({ number, isNext }) => keeper.tellLayers(number, isNext),
  end: () => keeper.end(),
  open: ({ file }) => keeper.open(file, new Station(live)),
  give: ({ files }) => keeper.give(files),
  look: ({ id, most }) => keeper.tellSeen(id, most),
  more: () => keeper.more(),
  save: ({ id }) => keeper.save(id),
  saveFile: ({ number, member }) => keeper.saveFile(number, member),
  saveAll: () => keeper.saveAll(),
  saveShelf: () => keeper.saveShelf(),
  demodulate: ({ file, how }) => demodulate(station, file, how, tell),
  modulate: ({ symbols }) => modulate(symbols, tell),
};

/** @param {{data: Task}} event */
onmessage = async ({ data }) => {
  try {
    await /** @type {(task: Task) => unknown} */ (TASKS[data.kind])(data);
    tell({ kind: 'did', task: data.kind });
  } catch (fault) {
    tell({ kind: 'failed', text: String(fault instanceof Error ? fault.message : fault) });
  }
};
