// SPDX-License-Identifier: LicenseRef-Wengeludo
// Runs the driver as a WebAssembly module in Node: node packaging/cross/run.mjs DRIVER.wasm < PACK > OUT
import { readFileSync, writeSync } from 'node:fs';

const wasm = new WebAssembly.Module(readFileSync(process.argv[2]));
const pack = readFileSync(0);

/** Writes all of the bytes, however many a pipe takes at once. */
function written(bytes) {
    for (let done = 0; done < bytes.length;) {
        try {
            done += writeSync(1, bytes, done);
        } catch (fault) {
            if (fault.code !== 'EAGAIN') throw fault;
        }
    }
}
const emit = (at, count) => written(new Uint8Array(driver.memory.buffer, at, Number(count)));
const driver = new WebAssembly.Instance(wasm, { env: { emit } }).exports;
const at = driver.__heap_base.value;
driver.memory.grow(Math.ceil(pack.length / 65536) + 1);
new Uint8Array(driver.memory.buffer).set(pack, at);
driver.drive(at, BigInt(pack.length));
