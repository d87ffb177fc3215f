// SPDX-License-Identifier: LicenseRef-Wengeludo
// What the tests share: the engine, the samples, and what a call tells.
import { readFileSync, readdirSync } from 'node:fs';
import { fileURLToPath } from 'node:url';
import { load, Refusal } from '../wengeludo.js';

export const ROOT = fileURLToPath(new URL('../../../', import.meta.url));
export const bytes = (path) => new Uint8Array(readFileSync(ROOT + path));
export const text = (path) => readFileSync(ROOT + path, 'utf8');
export const MODULE = process.env.WENGELUDO_WASM ?? `${ROOT}target/cross/wengeludo.wasm`;
export const engine = await load(readFileSync(MODULE));

/** The names of the samples with this ending. */
export const samples = (ending) => readdirSync(`${ROOT}samples`).filter((name) => name.endsWith(ending)).map((name) => name.slice(0, -ending.length));

/** [0, result] of a call, or [the refusal's number, undefined]. */
export function told(call) {
    try {
        return [0, call()];
    } catch (refusal) {
        if (!(refusal instanceof Refusal)) throw refusal;
        return [refusal.number, undefined];
    }
}
