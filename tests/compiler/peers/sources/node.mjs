// The same as host.c in Node.js: node host.mjs INPUT ROUNDS OPERATIONS UNIT.wasm
import fs from 'node:fs';

const [input, rounds, operations, file] = process.argv.slice(2);
const { instance } = await WebAssembly.instantiate(fs.readFileSync(file));
const unit = instance.exports;

function milliseconds() {
  const { user, system } = process.cpuUsage();
  return (user + system) / 1e3;
}

function least(operation) {
  let best = Infinity;
  for (let k = 0; k < +rounds; k++) {
    const begun = milliseconds();
    unit.unit_run(operation);
    best = Math.min(best, milliseconds() - begun);
  }
  return best;
}

unit._initialize();
const bytes = fs.readFileSync(input);
const at = unit.unit_room(bytes.length);
new Uint8Array(unit.memory.buffer).set(bytes, at);
unit.unit_prepare();
for (let operation = 0; operation < +operations; operation++) {
  const took = least(operation);
  console.log(took.toFixed(4), (unit.unit_sum() >>> 0).toString(16).padStart(8, '0'));
}
