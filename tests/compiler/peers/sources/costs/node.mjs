// The costs of WebAssembly in Node.js: node node.mjs GUEST.wasm. See costs.c.
import fs from 'node:fs';

const TURNS = 25;
const module = await WebAssembly.compile(fs.readFileSync(process.argv[2]));
const imports = { host: { told() {} } };
const unit = new WebAssembly.Instance(module, imports).exports;
const costs = [
  ['empty call', 1000000, (count) => { for (let k = 0; k < count; k++) unit.nothing(); }],
  ['call-back', 1000000, (count) => unit.call_back(count)],
  ['new instance and its end', 100, (count) => { for (let k = 0; k < count; k++) new WebAssembly.Instance(module, imports); }],
];

function nanoseconds() {
  const { user, system } = process.cpuUsage();
  return (user + system) * 1e3;
}

function least(count, often) {
  let best = Infinity;
  for (let turn = 0; turn < TURNS; turn++) {
    const begun = nanoseconds();
    often(count);
    best = Math.min(best, (nanoseconds() - begun) / count);
  }
  return best;
}

for (const [title, count, often] of costs) {
  console.log(least(count, often).toFixed(1), title);
}
