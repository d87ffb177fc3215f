// SPDX-License-Identifier: LicenseRef-Wengeludo
// Every committed case of an exported call (reference/cases.py says their form), through this module.
import assert from 'node:assert/strict';
import { readdirSync } from 'node:fs';
import { test } from 'node:test';
import { ROOT, bytes, engine, told } from './engine.mjs';

const FOLDER = 'crates/vectors/data/';
const at2 = (b, at) => (b[at] << 8) | b[at + 1];
const view = (b) => new DataView(b.buffer, b.byteOffset, b.byteLength);
const lastsOf = (b, at) => [...Array(8).keys()].map((k) => view(b).getUint32(at + 4 * k));

/** The cases of a file, each with all bytes of its slice. */
function* cases(data) {
    for (let at = 0; at < data.length;) {
        const given = at2(data, at + 2), said = at2(data, at + 4), middle = at + 20 + given;
        const slice = new Uint8Array(at2(data, at + 6)).fill(data[at + 1]);
        slice.set(data.subarray(middle, middle + said));
        yield { call: data[at], given: data.slice(at + 20, middle), slice, in: view(data).getUint32(at + 8), returned: data[at + 12],
            count: at2(data, at + 14), back: view(data).getUint32(at + 16) };
        at = middle + said;
    }
}

/** n elements of so many bytes, behind their number. */
const listOf = (b, count, at, size, get) => [...Array(count).keys()].map((k) => view(b)[get](at + size * k));
const same = (got, c, from = 0) => assert.deepEqual(got, c.slice.subarray(from, from + got.length));

const TRY = {
    1(c) {
        const [number, drawn] = told(() => engine.balancePlant(c.given, 0, [c.in, 0, 0, 0, 0, 0, 0, 0]));
        if (number) return number;
        assert.deepEqual([drawn.sheet.length, drawn.lasts[0]], [c.count, c.back]);
        same(drawn.sheet, c);
        return 0;
    },
    2(c) {
        const [number, plant] = told(() => engine.readPlant(c.given));
        if (number) return number;
        assert.deepEqual([plant.units, plant.streams.length], [c.count, c.back]);
        plant.streams.forEach((s, k) => {
            const v = view(c.slice), o = 17 * k;
            assert.deepEqual([s.weight == null ? 0 : s.low == null ? 1 : 3, s.from, s.to], [...c.slice.subarray(o, o + 3)]);
            if (s.weight != null) assert.deepEqual([s.weight, s.reading], [v.getUint16(o + 3), v.getInt32(o + 5)]);
            if (s.low != null) assert.deepEqual([s.low, s.high], [v.getInt32(o + 9), v.getInt32(o + 13)]);
        });
        return 0;
    },
    3(c) {
        const v = view(c.given), many = Math.min(c.given[1], 97);
        const streams = [...Array(many).keys()].map((k) => {
            const o = 2 + 17 * Math.min(k, 95), how = c.given[o], stream = { from: c.given[o + 1], to: c.given[o + 2] };
            if (how & 1) Object.assign(stream, { weight: v.getUint16(o + 3), reading: v.getInt32(o + 5) });
            if ((how & 3) === 3) Object.assign(stream, { low: v.getInt32(o + 9), high: v.getInt32(o + 13) });
            return stream;
        });
        return moved(c, () => engine.writePlant(c.given[0], streams));
    },
    5(c) {
        return listed(c, () => String(engine.balance(c.given)));
    },
    6(c) {
        const [number, sheet] = told(() => engine.readSheet(c.given));
        if (number) return number;
        const v = view(c.slice);
        assert.deepEqual([sheet.records.length, sheet.number], [c.count, c.back]);
        assert.deepEqual([sheet.plain ? 0x1f : 0x1e, sheet.office, sheet.cost, sheet.degrees], [c.slice[0], c.slice[1], v.getBigUint64(2), c.slice[10]]);
        assert.equal(['pass', 'fail', 'none', 'close'].indexOf(sheet.verdict), c.slice[11]);
        sheet.records.forEach((r, k) => assert.deepEqual([0x11 + 'ARGW'.indexOf(r.kind), r.flow ?? 0n], [c.slice[12 + 9 * k], v.getBigInt64(13 + 9 * k)]));
        return 0;
    },
    7: (c) => moved(c, () => engine.plantFromTransmitter(c.given)),
    9: (c) => moved(c, () => engine.toRanged(c.given)),
    10: (c) => moved(c, () => engine.fromRanged(c.given)),
    11(c) {
        const many = at2(c.given, 0), [number, bought] = told(() => engine.metersToBuy(c.given.slice(2 + 4 * many), listOf(c.given, many, 2, 4, 'getUint32')));
        if (number) return number;
        assert.deepEqual([bought.streams.length, bought.price], [c.count, c.back]);
        same(Uint8Array.from(bought.streams), c);
        return 0;
    },
    12(c) {
        const [number, counts] = told(() => engine.layoutsOf(c.given));
        if (number) return number;
        assert.deepEqual([counts.length - 1, counts], [c.count, listOf(c.slice, counts.length, 0, 2, 'getUint16')]);
        return 0;
    },
    13: (c) => listed(c, () => engine.layoutsOf(c.given).map((count, k) => `${k} ${count}\n`).join('')),
    14(c) {
        const [number, found] = told(() => engine.visits(c.given));
        if (number) return number;
        assert.equal(found.length, c.count);
        found.forEach((visit, k) => assert.deepEqual([visit.stream, visit.cost], [c.slice[9 * k], view(c.slice).getBigUint64(9 * k + 1)]));
        return 0;
    },
    15: (c) => listed(c, () => engine.visits(c.given).map((v) => `${v.stream} ${v.cost}\n`).join('')),
    16(c) {
        const [number, drawn] = told(() => engine.balancePlant(c.given.slice(33), c.given[0], lastsOf(c.given, 1)));
        if (number) return number;
        assert.deepEqual([drawn.sheet.length, drawn.lasts], [c.count, lastsOf(c.slice, 0)]);
        same(drawn.sheet, c, 32);
        return 0;
    },
    17(c) {
        const many = at2(c.given, 0), [number, billed] = told(() => engine.charges(c.given.slice(2 + 2 * many), listOf(c.given, many, 2, 2, 'getUint16')));
        if (number) return number;
        const v = view(c.slice);
        assert.deepEqual([billed.charges.length, billed.bill], [c.count, v.getBigInt64(0)]);
        billed.charges.forEach((charge, k) => assert.deepEqual([charge.stream, charge.cents], [c.slice[8 + 9 * k], v.getBigInt64(9 + 9 * k)]));
        return 0;
    },
    18(c) {
        const many = at2(c.given, 0), long = at2(c.given, 2), at = 4 + 8 * many;
        return told(() => engine.checkSheet(c.given.slice(at + long), c.given.slice(at, at + long), listOf(c.given, many, 4, 8, 'getBigInt64')))[0];
    },
    19(c) {
        const long = at2(c.given, 2), plant = c.given.slice(4 + long), [number, numbers] = told(() => engine.placeNumbers(plant));
        if (number) return number;
        assert.equal(numbers.length, c.count);
        engine.checkSheet(plant, c.given.slice(4, 4 + long), numbers);
        return 0;
    },
};

/** Bytes that a call hands back, against the slice. */
function moved(c, call) {
    const [number, file] = told(call);
    if (number) return number;
    assert.equal(file.length, c.count);
    same(file, c);
    return 0;
}

const TEXT_ROOM = { 5: 2544, 13: 117, 15: 2400 };

/** A listing against the text in the slice; the program's own, so that a refusal is a text as well. */
function listed(c, call) {
    const [number, said] = told(call);
    if (c.slice.length < TEXT_ROOM[c.call]) return c.returned; // nothing is told of a text whose slice is too short
    assert.equal(number ? `refused ${number}\n` : said, new TextDecoder().decode(c.slice.subarray(0, c.count)));
    return c.returned;
}

let all = 0;
for (const name of readdirSync(ROOT + FOLDER).sort()) {
    test(`cases of ${name}`, () => {
        for (const [k, c] of [...cases(bytes(FOLDER + name))].entries()) {
            if (c.returned === 1 || !(c.call in TRY)) continue; // slices are never too short here; calls that are not exported
            assert.equal(TRY[c.call](c), c.returned, `case ${k} of ${name}`);
            all += 1;
        }
    });
}
test('most of the cases are of exported calls', () => assert.ok(all > 6500, `${all}`));
