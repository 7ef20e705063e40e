// Boxes in Node.js, beside its signals, its timers and a worker, and beside traps of WebAssembly, which come by SIGSEGV. Once ../unpacker.c
// is built, in the folder above:
//
//     gcc -shared -fPIC -isystem /usr/include/node node/addon.c libunpacker.so -Wl,-rpath,'$ORIGIN' -o addon.node
//     node node/host.js unpack.elf
'use strict';
const { setImmediate } = require('timers/promises');
const { Worker } = require('worker_threads');
const addon = require.resolve('../addon.node');
const file = process.argv[2];
const unpack = require(addon).open(file);

const ENOUGH = 100;
const LONG = '0'.repeat(4000) + '1a'; // a signal comes most likely while the thread is inside
// (module (memory 1) (func (export "load") (param i32) (result i32) local.get 0 i32.load))
const LOADER = '0061736d01000000' + '01060160017f017f' + '03020100' + '0503010001' + '070801046c6f61640000' + '0a0901070020002802000b';

const SENDER = `
    const { workerData: [addon, file] } = require('worker_threads');
    const unpack = require(addon).open(file);
    setInterval(() => process.kill(process.pid, unpack('1S1I1G1U1S1R') + '2'), 1);
`;

function result(call) {
    try {
        return call();
    } catch (error) {
        return error.message;
    }
}

async function main() {
    for (const packed of ['3a1b10c', '99999999a', '1o1k']) {
        console.log(`${packed}: ${result(() => unpack(packed))}`);
    }
    const { load } = (await WebAssembly.instantiate(Buffer.from(LOADER, 'hex'))).instance.exports;
    let signals = 0, ticks = 0, wrong = 0;
    process.on('SIGUSR2', () => signals++);
    const timer = setInterval(() => ticks++, 1);
    const sender = new Worker(SENDER, { eval: true, workerData: [addon, file] });
    while (signals < ENOUGH || ticks < ENOUGH) {
        wrong += result(() => unpack(LONG)) !== 'a';
        wrong += result(() => load(1 << 30)) !== 'memory access out of bounds';
        await setImmediate();
    }
    console.log(`signals, timers and traps beside boxes: ${wrong} wrong`);
    await sender.terminate(); // which unloads its add-on
    clearInterval(timer);
    console.log(`after a worker with boxes: ${result(() => unpack('1o1k'))}`);
}

main();
