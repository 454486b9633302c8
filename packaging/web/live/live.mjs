// The page of a live source: two Workers, one that receives and one that keeps the shelf, and what they tell is shown.
import { at, save } from '../page/elements.mjs';
import { View } from '../page/view.mjs';

/** @type {WebAssembly.Module[]} */
let modules;
/** @type {Worker} */
let keeper;
/** @type {Worker} */
let receiver;
let files = 0;
let came = 0; // bytes
const view = new View((message) => keeper.postMessage(message));

/** @param {string} text @param {boolean} [isBad] */
function say(text, isBad = false) {
  at('state').textContent = text;
  at('state').className = isBad ? 'bad' : '';
}

/** @param {boolean} isGoing */
function going(isGoing) {
  for (const id of ['listen', 'options']) at(id).disabled = isGoing;
  at('stop').disabled = !isGoing;
}

function count() {
  at('time').textContent = `${(came / 1e6).toFixed(1)} MB came. Files so far: ${files}`;
}

/** @type {Record<string, (message: any) => void>} */
const HEARD = {
  open: () => say('Listening. Files appear as they come.'),
  came: ({ bytes }) => {
    came = bytes;
    count();
  },
  file: (file) => {
    files += 1;
    count();
    view.file(file);
  },
  picture: (picture) => view.picture(picture),
  sent: (sent) => view.sent(sent),
  text: (text) => view.text(text),
  saved: ({ name, bytes, type }) => name && save(name, [bytes], type),
  received: ({ status, last, err, fault }) => {
    if (status === 0) say(`The source has ended: ${last}`);
    else say(`The receiver ended early: ${[err, fault].filter(Boolean).join('; ')}`, true);
    going(false);
  },
  settled: (settled) => {
    document.body.dataset.settled = String(settled.files);
  },
  failed: ({ text }) => say(`It failed: ${text}`, true),
};

/**
 * A Worker with a module.
 * @param {string} script
 * @param {WebAssembly.Module} module
 */
function workerOf(script, module) {
  const worker = new Worker(script, { type: 'module' });
  worker.onmessage = ({ data }) => HEARD[data.kind]?.(data);
  worker.onerror = (event) => HEARD.failed({ text: event.message });
  worker.postMessage({ kind: 'load', module, live: module });
  return worker;
}

async function load() {
  if (!('Suspending' in WebAssembly)) throw new Error('this browser has no calls that wait (JSPI)');
  const compiled = ['lr_run', 'lr_live'].map(async (name) =>
    WebAssembly.compile(await (await fetch(`/${name}.wasm`)).arrayBuffer()),
  );
  modules = await Promise.all(compiled);
  keeper = workerOf('/page/worker.mjs', modules[0]);
  going(false);
}

at('listen').onclick = () => {
  const { port1, port2 } = new MessageChannel();
  view.clear();
  files = came = 0;
  delete document.body.dataset.settled;
  keeper.postMessage({ kind: 'keep', port: port1 }, [port1]);
  receiver?.terminate();
  receiver = workerOf('/live/live-worker.mjs', modules[1]);
  const url = new URL('/symbols', location.href.replace(/^http/, 'ws')).href;
  receiver.postMessage({ kind: 'listen', url, options: at('options').value.split(' '), port: port2 }, [port2]);
  going(true);
};
at('stop').onclick = () => receiver.postMessage({ kind: 'stop' });
at('save-shelf').onclick = () => keeper.postMessage({ kind: 'saveShelf' });
load().catch((fault) => HEARD.failed({ text: fault.message }));
