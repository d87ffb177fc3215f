// SPDX-License-Identifier: LicenseRef-Wengeludo
// Every sample, every call on one of them, every refusal by its smallest file, what is no number and no bytes; the calls of the header.
import assert from 'node:assert/strict';
import { test } from 'node:test';
import { CALLS, Engine, Refusal, TEXTS, load, transmitterFile } from '../wengeludo.js';
import { bytes, engine, samples, text, told } from './engine.mjs';

const hex = (digits) => Uint8Array.from(Buffer.from(digits.replaceAll(' ', ''), 'hex'));
const ENDED = hex('01010400');
const sample = (name) => bytes(`samples/${name}`);

for (const name of samples('.expected')) {
    test(`sample ${name}`, () => {
        const file = sample(`${name}.bin`), [number, sheet] = told(() => engine.balance(file));
        assert.equal(number ? `refused ${number}\n` : String(sheet), text(`samples/${name}.expected`));
        const plant = engine.readPlant(file);
        assert.deepEqual(engine.writePlant(plant.units, plant.streams), file);
    });
}

test('lists of the samples', () => {
    for (const name of samples('.visits')) {
        const listed = engine.visits(sample(`${name}.bin`)).map((v) => `${v.stream} ${v.cost}\n`).join('');
        assert.equal(listed, text(`samples/${name}.visits`));
    }
    assert.equal(engine.layoutsOf(sample('listing.bin')).map((count, k) => `${k} ${count}\n`).join(''), text('samples/listing.layouts'));
    const { charges, bill } = engine.charges(sample('billed_site.bin'), [0, 8350, 8350, 7120, 9060]);
    assert.equal(`${charges.map((c) => `${c.stream} ${c.cents}\n`).join('')}bill ${bill}\n`, text('samples/billed_site.charges'));
    assert.deepEqual(engine.metersToBuy(sample('blind_site.bin'), [900, 1400, 650, 650, 300, 300, 420n]), { streams: [4, 8], price: 950 });
});

test('moves, transmitters, checks', () => {
    const file = sample('steam_site.bin');
    assert.notDeepEqual(engine.toRanged(file), file);
    assert.deepEqual(engine.fromRanged(engine.toRanged(file)), file);
    const signals = [{ from: 0, to: 1, value: 100.25, deviation: 10 }, { from: 1, to: 2 }, { from: 1, to: 2 }, { from: 2, to: 0, value: 98.5, deviation: 5, held: true }];
    assert.deepEqual(transmitterFile(2, signals), sample('transmitter.bin'));
    assert.deepEqual(engine.plantFromTransmitter(sample('transmitter.bin')), sample('listing.bin'));
    const numbers = text('samples/rated_site.numbers').trim().split(/\s+/).map(BigInt);
    engine.checkSheet(sample('rated_site.bin'), sample('rated_site.sheet'), numbers);
    engine.checkSheet(file, engine.balancePlant(file, 3).sheet, engine.placeNumbers(file));
});

/** The plant, flows and numbers of a sample of text. */
function flowOf(name) {
    const lines = text(`samples/${name}`).split('\n').map((line) => line.split('#')[0].trim().split(/\s+/)).filter(([word]) => word);
    const streams = [], flows = [], numbers = [];
    let units = 0n;
    for (const [word, ...rest] of lines) {
        const [from, to, ...more] = rest.map(BigInt);
        if (word === 'units') units = from;
        else if (word === 'number') numbers[Number(from)] = to;
        else flows.push(more.at(-1)) && streams.push(word === 'unmetered' ? { from, to } : word === 'metered' ? { from, to, weight: more[0], reading: more[1] }
            : { from, to, weight: more[0], reading: more[1], low: more[2], high: more[3] });
    }
    return { units, streams, flows, numbers };
}

test('a flow found elsewhere', () => {
    const { units, streams, flows, numbers } = flowOf('wide_site.flow');
    engine.checkFlow(units, streams, flows, numbers);
    const changed = (k, words) => streams.map((s, i) => (i === k ? { ...s, ...words } : s));
    const refused = (number, ...given) => assert.equal(told(() => engine.checkFlow(...given))[0], number);
    refused(26, units, streams, flows, numbers.map((x, k) => (k === 1 ? 0n : x)));
    refused(26, units, streams, flows.map((x, k) => (k === 2 ? x + 1n : x)), numbers);
    refused(26, units, streams, flows, numbers.map((x, k) => (k === 4 ? 2n ** 70n : x)));
    refused(1, units, streams, flows, numbers.slice(1));
    refused(1, units, streams, flows.slice(1), numbers);
    refused(6, 256, streams, flows, numbers);
    refused(7, units, changed(0, { to: 5 }), flows, numbers);
    refused(9, units, changed(0, { weight: 2n ** 40n + 1n }), flows, numbers);
    refused(9, units, changed(0, { weight: 2n ** 64n }), flows, numbers);
    refused(10, units, changed(0, { reading: 2n ** 40n + 1n }), flows, numbers);
    refused(10, units, changed(0, { reading: -(2n ** 64n) }), flows, numbers);
    refused(18, units, changed(7, { low: 34001n }), flows, numbers);
    refused(18, units, changed(7, { low: -(2n ** 64n) }), flows, numbers);
    assert.throws(() => engine.checkFlow(units, changed(0, { low: 1 }), flows, numbers), RangeError);
});

test('committed flows', () => {
    let tried = 0;
    for (const line of text('reference/flows.cases').split('\n').filter((each) => each && !each.startsWith('#'))) {
        const [number, units, count, ...words] = line.split(' ').map(BigInt), slices = [];
        for (let at = 0; at < words.length; at += 1 + Number(words[at])) slices.push(words.slice(at + 1, at + 1 + Number(words[at])));
        const [from, to, metered, weight, reading, ranged, low, high, flow, numbers] = slices;
        if (slices.slice(0, 9).some((each) => BigInt(each.length) !== count) || weight.some((w, k) => metered[k] === 0n && ranged[k] !== 0n)) continue;
        const streams = from.map((_, k) => (metered[k] === 0n ? { from: from[k], to: to[k] } : { from: from[k], to: to[k], weight: weight[k], reading: reading[k],
            ...(ranged[k] ? { low: low[k], high: high[k] } : {}) }));
        assert.equal(told(() => engine.checkFlow(units, streams, flow, numbers))[0], Number(number), line);
        tried += 1;
    }
    assert.ok(tried > 300, `${tried}`);
});

test('offices', () => {
    const lasts = [0, 7, 0, 0, 0, 0, 0, 4294967295];
    assert.deepEqual(engine.balancePlant(ENDED, 1, lasts).lasts, [0, 8, 0, 0, 0, 0, 0, 4294967295]);
    assert.equal(engine.readSheet(engine.balancePlant(ENDED, 1, lasts).sheet).number, 8);
});

const PLANTS = { 3: '', 4: '00', 5: `0101${'030001'.repeat(96)}02`, 6: '0100', 7: '0101030200', 8: '0101030000', 9: '01010200010000 00000000',
    10: '0101020001 0001 003D0901', 11: '01010401', 12: '0101040000', 18: '0101060001 0001 00000000 00000001 00000000',
    19: '0101060001 0001 00000000 00000001 00000001 0401' };
const REFUSED = [
    ...Object.entries(PLANTS).map(([number, file]) => [Number(number), () => engine.balancePlant(hex(file))]),
    ...Object.entries({ 13: '', 14: `1F${'00'.repeat(14)}`, 15: `1F00000001${'00'.repeat(9)}0200` }).map(([n, f]) => [Number(n), () => engine.readSheet(hex(f))]),
    [16, () => engine.plantFromTransmitter(hex(`0101210001 7F800000${'00'.repeat(8)}`))], [17, () => engine.plantFromTransmitter(hex(`0101210001${'00'.repeat(12)}`))],
    [2, () => engine.balancePlant(ENDED, 7, [0, 0, 0, 0, 0, 0, 0, 4294967295])], [20, () => engine.fromRanged(hex(`0101060001 0001${'00'.repeat(12)}0401`))],
    [21, () => engine.metersToBuy(ENDED, [1])], [22, () => engine.balancePlant(ENDED, 8)], [22, () => engine.balancePlant(ENDED, 256)],
    [23, () => engine.layoutsOf(hex(`0101${'030001'.repeat(13)}040D`))], [24, () => engine.charges(ENDED, [1])], [24, () => engine.charges(hex('0101 020100 0001 00000000 0401'), [65536])],
    [25, () => engine.charges(hex('0101 030001 030001 030100 030100 0404'), [0, 0])], [26, () => engine.checkSheet(ENDED, engine.balancePlant(ENDED).sheet, [0])],
    [6, () => engine.writePlant(256, [])], [6, () => engine.writePlant(-1, [])], [7, () => engine.writePlant(1, [{ from: 257, to: 1 }])],
    [9, () => engine.writePlant(1, [{ from: 0, to: 1, weight: 65537, reading: 0 }])], [10, () => engine.writePlant(1, [{ from: 0, to: 1, weight: 1, reading: 2 ** 32 }])],
    [18, () => engine.writePlant(1, [{ from: 0, to: 1, weight: 1, reading: 0, low: -(2 ** 32), high: 0 }])], [5, () => engine.writePlant(1, Array(97).fill({ from: 0, to: 1 }))],
    [21, () => engine.metersToBuy(sample('listing.bin'), [2 ** 32 + 1, 1])],
];
REFUSED.forEach(([number, call], k) => test(`refused ${number}, ${k}`, () => {
    assert.throws(call, (refusal) => {
        assert.ok(refusal instanceof Refusal && refusal instanceof Error);
        assert.equal(refusal.number, number);
        assert.equal(refusal.text, TEXTS[number]);
        assert.ok(refusal.message.startsWith(`refused ${number}: ${TEXTS[number]}`));
        assert.equal(refusal.places.length > 0, number === 19);
        return true;
    });
}));

test('every refusal but the one of slices is tried', () => {
    const tried = new Set(REFUSED.map(([number]) => number));
    assert.deepEqual(Object.keys(TEXTS).map(Number).filter((number) => !tried.has(number)), [1]);
});

test('the marked places of an overfull set, place 32 among them', () => {
    const file = engine.writePlant(32, [{ from: 0, to: 32, weight: 1, reading: 0, low: 5, high: 5 }]);
    assert.throws(() => engine.balancePlant(file), (refusal) => refusal.number === 19 && refusal.places.includes(32));
});

test('what is no whole number, no bytes, no module', async () => {
    assert.throws(() => engine.writePlant(1, [{ from: 0, to: 1, weight: 1.5, reading: 0 }]), TypeError);
    assert.throws(() => engine.balance('01010400'), TypeError);
    assert.throws(() => engine.writePlant(1, [{ from: 0, to: 1, weight: 1, reading: 0, low: 1 }]), RangeError);
    assert.throws(() => engine.balancePlant(ENDED, 0, [0]), RangeError);
    await assert.rejects(load(new Uint8Array(8)), WebAssembly.CompileError);
});

test('bytes in any form, and far more of them than the module has memory for', () => {
    for (const form of [ENDED, ENDED.buffer, new DataView(ENDED.buffer), Buffer.from(ENDED)]) assert.equal(engine.balance(form).verdict, 'none');
    assert.equal(told(() => engine.balance(new Uint8Array(3 << 20)))[0], 4);
});

/** The calls of the header with what each is handed, as the table of wengeludo.js says it. */
function declared() {
    const header = text('include/wengeludo_balance.h').replace(/\/\*[\s\S]*?\*\//g, '');
    const short = (type) => ({ size_t: 'u64' })[type] ?? type.replace('uint', 'u').replace('int', 'i').replace('_t', '');
    const words = (parameters) => parameters.replace(/,\s*size_t \w+_length/g, ',size_t length').split(',').map((p) => p.trim()).flatMap((p, k, all) => {
        const [, fixed, type, star] = /^(const )?(\w+) (\*?)\w+$/.exec(p) ?? [];
        if (p === 'size_t length' || type === undefined) return [];
        if (!star) return [short(type)];
        return [all[k + 1] !== 'size_t length' ? `cell ${short(type)}` : `${fixed ? 'in' : 'out'} ${short(type)}`];
    });
    return Object.fromEntries([...header.matchAll(/^uint\d+_t wengeludo_(\w+)\(([^)]*)\);/gm)].map(([, name, list]) => [name, words(list)]));
}

test('the calls are those of the header', () => {
    const ours = Object.fromEntries(Object.entries(CALLS).map(([name, words]) => [name, words.map((word) => word.replace('both', 'out').replace(/ \d+$/, ''))]));
    assert.deepEqual(ours, declared());
    const camel = (name) => name.replace(/_(\w)/g, (_, letter) => letter.toUpperCase());
    for (const name of Object.keys(CALLS)) {
        assert.equal(typeof Engine.prototype[camel(name)], 'function', name);
        assert.match(text('bindings/js/wengeludo.d.ts'), new RegExp(`^    ${camel(name)}\\(`, 'm'));
    }
});

test('the limits are those of the header', async () => {
    const ours = await import('../wengeludo.js'), header = text('include/wengeludo_balance.h');
    const names = { SHEET_SIZE: 'SHEET_SIZE', FILE_SIZE: 'FILE_SIZE', MAX_STREAMS: 'MAX_STREAMS', MAX_PLACES: 'MAX_PLACES', SURVEY_SIZE: 'SURVEY_SIZE', OFFICES: 'OFFICES', WIDEST: 'MAX_RANGE' };
    for (const [name, there] of Object.entries(names)) assert.equal(ours[name], Number(new RegExp(`#define WENGELUDO_${there} (\\d+)`).exec(header)[1]), name);
});
