// SPDX-License-Identifier: LicenseRef-Wengeludo
// Drawn plants, whole and damaged, against the reference solver (reference/), which shares no method with the engine.
// WENGELUDO_DRAWN (default 300)   how many plants
import assert from 'node:assert/strict';
import { execFileSync } from 'node:child_process';
import { test } from 'node:test';
import { ROOT, engine, told } from './engine.mjs';

const MANY = process.env.WENGELUDO_DRAWN ?? '300';
const hex = (digits) => Uint8Array.from(Buffer.from(digits, 'hex'));
const plain = (value) => JSON.parse(JSON.stringify(value, (_, v) => (typeof v === 'bigint' ? Number(v) : v)));

test(`${MANY} drawn plants against the reference`, () => {
    const said = execFileSync('python3', [`${ROOT}bindings/js/tests/answers.py`, MANY, '1'], { maxBuffer: 1 << 28, encoding: 'utf8' });
    const lines = said.trim().split('\n').map((line) => JSON.parse(line));
    assert.equal(lines.length, Number(MANY));
    lines.forEach(compared);
    assert.ok(lines.some((line) => line.sheet[0] === 0) && lines.some((line) => line.sheet[0] === 19));
});

/** All that the calls tell of one file, against the answers. */
function compared(line) {
    const file = hex(line.file), at = line.file;
    const [number, drawn] = told(() => engine.balancePlant(file, line.office, line.lasts));
    assert.equal(number, line.sheet[0], at);
    if (drawn) assert.deepEqual([Buffer.from(drawn.sheet).toString('hex'), drawn.lasts], line.sheet.slice(1), at);
    [engine.toRanged, engine.fromRanged].forEach((move, k) => {
        const [got, moved] = told(() => move.call(engine, file));
        assert.deepEqual([got, moved ? Buffer.from(moved).toString('hex') : null], line.moves[k], at);
    });
    const [buy, bought] = told(() => engine.metersToBuy(file, line.prices));
    assert.deepEqual([buy, ...(bought ? [bought.streams, bought.price] : [])], buy ? [line.buying[0]] : line.buying, at);
    const [survey, counts] = told(() => engine.layoutsOf(file));
    assert.deepEqual([survey, counts], survey ? [line.layouts[0], undefined] : [0, line.layouts[2]], at);
    const [visit, listed] = told(() => engine.visits(file));
    assert.deepEqual([visit, listed && plain(listed.map((v) => [v.stream, v.cost]))], visit ? [line.visits[0], undefined] : line.visits, at);
    const [charge, bill] = told(() => engine.charges(file, line.rates));
    const parts = bill && plain([bill.charges.map((c) => c.stream), bill.charges.map((c) => c.cents), bill.bill]);
    assert.deepEqual([charge, ...(parts ?? [])], charge ? [line.charges[0]] : line.charges, at);
    const [numbered, numbers] = told(() => engine.placeNumbers(file));
    assert.equal(numbered, line.numbers, at);
    if (numbers) engine.checkSheet(file, engine.balancePlant(file).sheet, numbers);
}
