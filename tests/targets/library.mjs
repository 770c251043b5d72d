// node library.mjs WASM CARD: the library as a page has it. It may import nothing; its exports by name, and then what examples/c/best.c prints for the card.
import fs from 'node:fs';

const module = await WebAssembly.compile(fs.readFileSync(process.argv[2]));
if (WebAssembly.Module.imports(module).length > 0) throw new Error('it imports something');
console.log(WebAssembly.Module.exports(module).map((one) => one.name).sort().join(' '));
const engine = (await WebAssembly.instantiate(module, {})).exports;

const WORK_NUMBERS = 25600, ANSWER_BYTES = 6398, RESULT_NUMBERS = 8;
let free = engine.__heap_base.value;

// Room for some bytes in the engine's memory, on a multiple of 8, and its address.
function room(length) {
    const start = (free + 7) & ~7;
    free = start + length;
    const missing = free - engine.memory.buffer.byteLength;
    if (missing > 0) engine.memory.grow(Math.ceil(missing / 65536));
    return start;
}

function lend(bytes) {
    const start = room(bytes.length);
    new Uint8Array(engine.memory.buffer).set(bytes, start);
    return [start, BigInt(bytes.length)]; // a slice: an address, and a length of 64 bits
}

const card = lend(fs.readFileSync(process.argv[3])), ranking = lend([0, 1, 2]), word = lend([1, 2, 3]);
const work = room(2 * WORK_NUMBERS), answer = room(ANSWER_BYTES), result = room(2 * RESULT_NUMBERS);
const refusal = engine.pastaspur_optimize(...card, ...ranking, ...word, work, BigInt(WORK_NUMBERS), answer, BigInt(ANSWER_BYTES), result);
if (refusal !== 0) throw new Error(`refused ${refusal}`);
const [noCoda, dep, parse, , , , pairs] = new Uint16Array(engine.memory.buffer, result, RESULT_NUMBERS);
const best = new Uint8Array(engine.memory.buffer, answer, 2 * pairs);
let line = `NoCoda ${noCoda}, DEP ${dep}, PARSE ${parse}:`;
for (let i = 0; i < best.length; i += 2) line += ` ${best[i]}:${best[i + 1]}`;
console.log(line);
