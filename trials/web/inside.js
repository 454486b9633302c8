// Within the page, after the host of the modules: runs one command by both modules over files of an element.
const given = new Map([...document.getElementById('lent-files').files].map((it) => [it.name, it]));
const lent = JSON.parse(document.getElementById('lent').textContent).modules;
const decoded = (text) => Uint8Array.from(atob(text), (it) => it.charCodeAt(0));
const stations = Object.fromEntries(
  Object.entries(lent).map(([name, text]) => [name, WebAssembly.compile(decoded(text))]),
);
const bytes = async (name) => new Uint8Array(await given.get(name).arrayBuffer());
const sum = async (it) => {
  const digest = new Uint8Array(await crypto.subtle.digest('SHA-256', it));
  return [...digest].map((byte) => byte.toString(16).padStart(2, '0')).join('');
};
const whole = (parts) => new Blob(parts).arrayBuffer();

window.runBoth = async ({ words, input, shelf }) => {
  const [data, before] = [await bytes(input), await bytes(shelf)];
  const run = new Station(await stations.lr_run).run(words, { input: data, shelf: before });
  const outputs = { 1: [], 2: [] };
  const kept = new MemoryShelf(before);
  const devices = { input: new BytesInput(data), shelf: kept, put: (output, piece) => outputs[output].push(piece) };
  const status = new Station(await stations.lr_live).live(words, devices);
  const err = new TextDecoder().decode(await whole(outputs[2]));
  return JSON.stringify({
    lr_run: { status: run.status, out: await sum(run.out), err: run.err, after: await sum(run.shelf) },
    lr_live: { status, out: await sum(await whole(outputs[1])), err, after: await sum(kept.all()) },
  });
};
