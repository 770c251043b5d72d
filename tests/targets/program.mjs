// node program.mjs FILE: runs a program compiled for wasm32, and gives it what it needs of the machine that it runs on.
import fs from 'node:fs';

let memory;
const bytes = (start, length) => new Uint8Array(memory.buffer, start, Number(length));

function text(start) {
    const all = new Uint8Array(memory.buffer);
    return Buffer.from(all.subarray(start, all.indexOf(0, start))).toString();
}

function open(path) {
    try {
        return fs.openSync(text(path));
    } catch {
        return -1;
    }
}

const env = {
    read: (file, to, length) => BigInt(fs.readSync(file, bytes(to, length))),
    write: (file, from, length) => BigInt(fs.writeSync(file, bytes(from, length))),
    close: (file) => (fs.closeSync(file), 0),
    open,
    rattle_errno: () => 0,
    rattle_set_errno: () => {},
    exit: (status) => process.exit(status),
};
const { instance } = await WebAssembly.instantiate(fs.readFileSync(process.argv[2]), { env });
memory = instance.exports.memory;
// The compiler has a name of its own for a `main` that takes arguments.
const main = instance.exports.main ?? instance.exports.__main_argc_argv;
process.exitCode = main(0, 0);
