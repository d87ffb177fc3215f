// Steam and condensate balance sheets: every call of the proved engine, for browsers and Node, over its WebAssembly module.
//
//     import { load } from './wengeludo.js';
//     const engine = await load(bytes);               // the bytes of wengeludo.wasm, however they came
//     console.log(String(engine.balance(file)));      // 1 A 99 ...
//
// Nothing is fetched: the caller hands over the module's bytes. Flows, costs, cents and the numbers of places are BigInt.
// A call that is refused throws a Refusal; the calls keep no state.

/** What a refusal's number says. */
export const TEXTS = Object.freeze({
    // refusals: texts, from tools/refusals.tsv
    1: "a slice is too short: under 880 bytes for a sheet, 8 numbers for the offices, 1,636 bytes for a plant file, 96 elements for the plant reader, the sheet reader and lists of streams, 13 for the survey, 33 for the numbers of the places; for the check of a flow, fewer elements than streams, or numbers than places",
    2: "the calling office's last sheet number is 4,294,967,295",
    3: "bytes end where a record is due or inside a body",
    4: "kind not allowed at this place",
    5: "a 97th stream; for the plant writer and the check of a flow, a count over 96",
    6: "the number of units, n, is 0 or over 32",
    7: "from or to above n",
    8: "from equals to",
    9: "weight 0 or over 1,000; for the check of a flow, over 1,099,511,627,776",
    10: "reading outside -4,000,000 to 4,000,000; for the check of a flow, outside -1,099,511,627,776 to 1,099,511,627,776",
    11: "end count differs from the streams read",
    12: "bytes after the end record",
    13: "in a sheet, a record is missing, cut short, a 97th or of a wrong kind",
    14: "in a sheet, a field of the total is not allowed: an office over 7, number 0, degrees over 32 or a verdict that does not fit",
    15: "in a sheet, bytes after the total",
    16: "a transmitter's value is not finite",
    17: "a transmitter's deviation is no finite number above 0",
    18: "low above high, or either outside -2,000,000,000 to 2,000,000,000; for the check of a flow, low above high",
    19: "no balanced flow lies within all ranges",
    20: "moving home, a range is narrower than -2,000,000,000 to 2,000,000,000",
    21: "prices are not one for each unmetered stream, or one is 0 or over 1,000,000",
    22: "the office is above 7",
    23: "more than the 12 streams of which layouts are surveyed",
    24: "rates are not one for each stream to the outside, or one is over 10,000",
    25: "a stream to the outside is withheld, whatever its rate",
    26: "a sheet or a flow that is checked breaks a rule, a number of a place is missing, extra or past its limit, or the plant has no sheet",
    // refusals: end of texts
});

/** A call was refused. Nothing was written, no sheet number was drawn. */
export class Refusal extends Error {
    constructor(number, marked = 0n) {
        const text = TEXTS[number] ?? 'a number that this binding does not know';
        const places = [...Array(64).keys()].filter((place) => (marked >> BigInt(place)) & 1n);
        super(`refused ${number}: ${text}${places.length ? `; too much goes into places ${places.join(', ')}` : ''}`);
        this.name = 'Refusal';
        this.number = number;
        this.text = text;
        this.places = places;
    }
}

export const SHEET_SIZE = 880, FILE_SIZE = 1636, MAX_STREAMS = 96, MAX_PLACES = 33, SURVEY_SIZE = 13, OFFICES = 8, WIDEST = 2000000000;
export const VERSION = '1.1.0';
export const VERDICTS = Object.freeze(['pass', 'fail', 'none', 'close']);
const LETTERS = { 0x11: 'A', 0x12: 'R', 0x13: 'G', 0x14: 'W' };
const PLAIN = 0x1f;

// The eight slices of a plant's parts, to be written.
const PARTS = ['u8', 'u8', 'u8', 'u16', 'i32', 'u8', 'i32', 'i32'].map((type) => `out ${type} ${MAX_STREAMS}`);

// The calls, each with what it is handed, in the header's order: a slice that is read ('in'), one that is written ('out', with its
// length), one that is both; a number; a cell for a number that it hands back. A call more is a line here and a method below.
const CALLS = Object.freeze({
    version: [],
    balance_plant: ['in u8', 'u8', 'both u32', `out u8 ${SHEET_SIZE}`, 'cell u64', 'cell u64'],
    write_plant: ['u8', 'u64', 'in u8', 'in u8', 'in u8', 'in u16', 'in i32', 'in u8', 'in i32', 'in i32', `out u8 ${FILE_SIZE}`, 'cell u64'],
    read_plant: ['in u8', 'cell u8', 'cell u64', ...PARTS],
    read_sheet: ['in u8', `out u8 ${MAX_STREAMS}`, `out i64 ${MAX_STREAMS}`,
        'cell u64', 'cell u8', 'cell u8', 'cell u32', 'cell u64', 'cell u8', 'cell u8'],
    plant_from_transmitter: ['in u8', `out u8 ${FILE_SIZE}`, 'cell u64'],
    to_ranged: ['in u8', `out u8 ${FILE_SIZE}`, 'cell u64'],
    from_ranged: ['in u8', `out u8 ${FILE_SIZE}`, 'cell u64'],
    meters_to_buy: ['in u8', 'in u32', `out u8 ${MAX_STREAMS}`, 'cell u64', 'cell u32'],
    layouts_of: ['in u8', `out u16 ${SURVEY_SIZE}`, 'cell u64'],
    visits: ['in u8', `out u8 ${MAX_STREAMS}`, `out u64 ${MAX_STREAMS}`, 'cell u64'],
    charges: ['in u8', 'in u16', `out u8 ${MAX_STREAMS}`, `out i64 ${MAX_STREAMS}`, 'cell u64', 'cell i64'],
    check_sheet: ['in u8', 'in u8', 'in i64'],
    check_flow: ['u8', 'u64', 'in u8', 'in u8', 'in u8', 'in u64', 'in i64', 'in u8', 'in i64', 'in i64', 'in i64', 'in i64'],
    place_numbers: ['in u8', `out i64 ${MAX_PLACES}`, 'cell u64'],
});
export { CALLS };

const TYPES = { u8: Uint8Array, u16: Uint16Array, u32: Uint32Array, u64: BigUint64Array, i32: Int32Array, i64: BigInt64Array };
const BITS = { u8: 8, u16: 16, u32: 32, u64: 64, i32: 32, i64: 64 };

/** The bytes of a Uint8Array, a Buffer, any other view, or an ArrayBuffer. */
function bytesOf(given) {
    if (ArrayBuffer.isView(given)) return new Uint8Array(given.buffer, given.byteOffset, given.byteLength);
    if (given instanceof ArrayBuffer) return new Uint8Array(given);
    throw new TypeError('bytes are a Uint8Array, another view of a buffer, or an ArrayBuffer');
}

/** A whole number as BigInt; TypeError for anything else. */
function whole(value) {
    if (typeof value === 'bigint') return value;
    if (!Number.isSafeInteger(value)) throw new TypeError(`${value} is no whole number`);
    return BigInt(value);
}

/** A number of this type; in the place of one that does not fit, a number that the call refuses. */
function fitting(type, value, refused) {
    const number = whole(value), bits = BITS[type];
    const fits = number === (type[0] === 'u' ? BigInt.asUintN(bits, number) : BigInt.asIntN(bits, number));
    const taken = fits ? number : whole(refused);
    return bits === 64 ? taken : Number(taken);
}

/** A slice of numbers of this type, each of them fitted. */
const slice = (type, values, refused) => TYPES[type].from(values, (value) => fitting(type, value, refused));

/** Which streams have a meter, and which a range; a RangeError for half a range, or one without a meter. */
function metersOf(streams) {
    const metered = streams.map((s) => s.weight != null), ranged = streams.map((s, k) => metered[k] && s.low != null && s.high != null);
    streams.forEach((s, k) => {
        if ((s.low != null) !== (s.high != null) || (!metered[k] && s.low != null)) {
            throw new RangeError(`stream ${k + 1}: a range is low and high, both or neither, of a stream with a weight`);
        }
    });
    return { metered, ranged };
}

/** Loads the engine from the bytes of its WebAssembly module. */
export async function load(bytes) {
    const { instance } = await WebAssembly.instantiate(bytesOf(bytes), {});
    const engine = new Engine(instance.exports), found = numbered(engine.version()), needed = numbered(VERSION);
    if (Math.floor(found / 10000) !== Math.floor(needed / 10000) || found < needed) {
        throw new Error(`wengeludo: the module is version ${engine.version()}; this file needs ${VERSION} or a later one of the same first number`);
    }
    return engine;
}

/** A version as one number: 10000 for '1.0.0'. */
const numbered = (version) => version.split('.').reduce((sum, part) => 100 * sum + Number(part), 0);

/** The engine's calls. Made by `load`. */
export class Engine {
    #wasm;

    constructor(wasm) {
        this.#wasm = wasm;
    }

    /** Memory for what a call is handed, from the first free byte on; the module's memory grows where it must. */
    #room(sizes) {
        const places = [];
        let at = Math.ceil(this.#wasm.__heap_base.value / 8) * 8;
        for (const size of sizes) {
            places.push(at);
            at += Math.ceil(size / 8) * 8;
        }
        const lacking = at - this.#wasm.memory.buffer.byteLength;
        if (lacking > 0) this.#wasm.memory.grow(Math.ceil(lacking / 65536));
        return places;
    }

    /** Hands `given` to a call, and hands back its number and a copy of each slice and cell that it wrote. */
    #call(name, ...given) {
        const words = CALLS[name].map((word) => word.split(' ')), handed = given.values();
        const parts = words.map(([how, type, length]) => {
            if (type === undefined) return { number: fitting(how, handed.next().value, how === 'u8' ? 255 : 0) };
            if (how === 'in' || how === 'both') return { how, slice: handed.next().value };
            return { how, slice: new TYPES[type](how === 'cell' ? 1 : Number(length)) };
        });
        const slices = parts.filter((part) => part.slice);
        this.#room(slices.map((part) => part.slice.byteLength)).forEach((at, k) => Object.assign(slices[k], { at }));
        for (const part of slices) this.#view(part).set(part.slice);
        const args = parts.flatMap((part) =>
            part.slice === undefined ? [part.number] : part.how === 'cell' ? [part.at] : [part.at, BigInt(part.slice.length)]);
        const number = this.#wasm[`wengeludo_${name}`](...args) & 0xff;
        return [number, ...slices.filter((part) => part.how !== 'in').map((part) => this.#view(part).slice())];
    }

    /** A slice where it lies in the module's memory. */
    #view({ slice: { constructor: Type, length }, at }) {
        return new Type(this.#wasm.memory.buffer, at, length);
    }

    /** The same, and a Refusal thrown for a number that is not 0; the slices and cells alone. */
    #done(name, ...given) {
        const [number, ...back] = this.#call(name, ...given);
        if (number) throw new Refusal(number);
        return back;
    }

    /** The version of the engine, as '1.0.0'. */
    version() {
        const number = this.#wasm.wengeludo_version();
        return [Math.floor(number / 10000), Math.floor(number / 100) % 100, number % 100].join('.');
    }

    /** Draws the sheet of a plant file for an office. Refused: 22, 2, 3 to 12, 18, 19 (with the marked places). */
    balancePlant(file, office = 0, lasts = Array(OFFICES).fill(0)) {
        if (lasts.length !== OFFICES) throw new RangeError('the last sheet numbers are eight');
        const numbers = slice('u32', lasts, 0xffffffff);
        const [number, after, sheet, [written], [marked]] = this.#call('balance_plant', bytesOf(file), office, numbers);
        if (number) throw new Refusal(number, marked);
        return { sheet: sheet.slice(0, Number(written)), lasts: [...after] };
    }

    /** Reads a kept sheet back in. Refused: 13, 14, 15. */
    readSheet(bytes) {
        const [kinds, flows, [count], [kind], [office], [number], [cost], [degrees], [verdict]] = this.#done('read_sheet', bytesOf(bytes));
        const records = [...kinds.slice(0, Number(count))].map((k, i) => ({ kind: LETTERS[k], flow: LETTERS[k] === 'W' ? null : flows[i] }));
        return new Sheet({ records, office, number, cost, degrees, verdict: VERDICTS[verdict], plain: kind === PLAIN });
    }

    /** The sheet of a plant file, by its parts, as sheet 1 of office 0. Refused: 3 to 12, 18, 19. */
    balance(file) {
        return this.readSheet(this.balancePlant(file).sheet);
    }

    /** The plant file of a plant's parts. Refused: 6, 5, then stream after stream 7 to 10, 18. */
    writePlant(units, streams) {
        const { metered, ranged } = metersOf(streams);
        const column = (type, of, refused) => slice(type, streams.map(of), refused);
        const [file, [written]] = this.#done('write_plant', fitting('u8', units, 0), streams.length,
            column('u8', (s) => s.from, 255), column('u8', (s) => s.to, 255), column('u8', (s, k) => Number(metered[k])),
            column('u16', (s) => s.weight ?? 0, 0), column('i32', (s) => s.reading ?? 0, 0x7fffffff), column('u8', (s, k) => Number(ranged[k])),
            column('i32', (s, k) => (ranged[k] ? s.low : 0), -0x80000000), column('i32', (s, k) => (ranged[k] ? s.high : 0), 0x7fffffff));
        return file.slice(0, Number(written));
    }

    /** The units and streams of a plant file. Refused: 3 to 12, 18. */
    readPlant(file) {
        const [[units], [count], from, to, metered, weight, reading, ranged, low, high] = this.#done('read_plant', bytesOf(file));
        const streams = [...from.slice(0, Number(count))].map((source, k) => ({
            from: source, to: to[k], ...(metered[k] && { weight: weight[k], reading: reading[k] }), ...(ranged[k] && { low: low[k], high: high[k] }),
        }));
        return { units, streams };
    }

    #moved(name, file) {
        const [moved, [written]] = this.#done(name, bytesOf(file));
        return moved.slice(0, Number(written));
    }

    /** The plant file with the widest range on each meter that had none. Refused: 3 to 12, 18. */
    toRanged(file) {
        return this.#moved('to_ranged', file);
    }

    /** The plant file with no widest range. Refused: 3 to 12, 18, 20 if a range is narrower. */
    fromRanged(file) {
        return this.#moved('from_ranged', file);
    }

    /** The plant file that a transmitter file becomes. Refused: 3 to 12, 16, 17. */
    plantFromTransmitter(file) {
        return this.#moved('plant_from_transmitter', file);
    }

    /** The cheapest meters that end every blank; a price for each unmetered stream. Refused: 3 to 12, 18, 21. */
    metersToBuy(file, prices) {
        const [streams, [count], [price]] = this.#done('meters_to_buy', bytesOf(file), slice('u32', prices, 0));
        return { streams: [...streams.slice(0, Number(count))], price };
    }

    /** For each k from 0 to the number of streams, how many choices of k meters leave no blank. Refused: 3 to 12, 18, 23. */
    layoutsOf(file) {
        const [counts, [count]] = this.#done('layouts_of', bytesOf(file));
        return [...counts.slice(0, Number(count) + 1)];
    }

    /** Each A stream with the least cost without its meter, the least first. Refused: 3 to 12, 18, 19. */
    visits(file) {
        const [streams, costs, [count]] = this.#done('visits', bytesOf(file));
        return [...streams.slice(0, Number(count))].map((stream, k) => ({ stream, cost: costs[k] }));
    }

    /** What each stream to the outside is charged for one hour, a rate for each. Refused: 3 to 12, 18, 19, 24, 25. */
    charges(file, rates) {
        const [streams, cents, [count], [bill]] = this.#done('charges', bytesOf(file), slice('u16', rates, 65535));
        return { charges: [...streams.slice(0, Number(count))].map((stream, k) => ({ stream, cents: cents[k] })), bill };
    }

    /** Checks a sheet drawn up elsewhere, with one number for each place. Refused: the plant's, the sheet's, 26. */
    checkSheet(plant, sheet, numbers) {
        this.#done('check_sheet', bytesOf(plant), bytesOf(sheet), slice('i64', numbers, 0x7fffffffffffffffn));
    }

    /** Checks a flow found elsewhere, of a plant with wide weights, with one number for each place. Refused: 1, 5 to 10, 18, 26. */
    checkFlow(units, streams, flows, numbers) {
        const { metered, ranged } = metersOf(streams), most = 0x7fffffffffffffffn;
        const column = (type, of, refused) => slice(type, streams.map(of), refused);
        const ends = streams.map((s, k) => (ranged[k] ? [whole(s.low), whole(s.high)] : [0n, 0n]))
            .map(([low, high]) => (low < -most - 1n || high > most ? [1n, 0n] : [low, high]));
        this.#done('check_flow', fitting('u8', units, 0), streams.length,
            column('u8', (s) => s.from, 255), column('u8', (s) => s.to, 255), column('u8', (s, k) => Number(metered[k])),
            column('u64', (s) => s.weight ?? 0, 0), column('i64', (s, k) => (metered[k] ? s.reading ?? 0 : 0), most),
            column('u8', (s, k) => Number(ranged[k])), column('i64', (s, k) => ends[k][0], most), column('i64', (s, k) => ends[k][1], -most),
            slice('i64', flows, most), slice('i64', numbers, most));
    }

    /** One number for each place, the outside first, with which the plant's sheets pass the check. Refused: 3 to 12, 18, 19. */
    placeNumbers(file) {
        const [numbers, [count]] = this.#done('place_numbers', bytesOf(file));
        return [...numbers.slice(0, Number(count))];
    }
}

/** A sheet as the sheet reader reads it. */
export class Sheet {
    constructor(parts) {
        Object.assign(this, parts);
    }

    /** The listing, as the program `balance` prints it. */
    toString() {
        const lines = this.records.map((r, k) => `${k + 1} ${r.kind} ${r.flow ?? '-'}\n`);
        return `${lines.join('')}total ${this.number} ${this.cost} ${this.degrees} ${this.verdict}\n`;
    }
}

/** A transmitter file of its parts: signals without a value are faults. RangeError if there are over 255 of them. */
export function transmitterFile(units, signals) {
    if (signals.length > 255) throw new RangeError('a transmitter file has at most 255 records');
    const size = (signal) => (signal.value == null ? 3 : 15);
    const file = new Uint8Array(signals.reduce((sum, signal) => sum + size(signal), 4)), view = new DataView(file.buffer);
    file.set([0x01, fitting('u8', units, 0)]);
    let at = 2;
    for (const signal of signals) {
        const kind = signal.value == null ? 0x23 : signal.held ? 0x22 : 0x21;
        file.set([kind, fitting('u8', signal.from, 255), fitting('u8', signal.to, 255)], at);
        if (kind !== 0x23) view.setFloat32(at + 3, signal.value), view.setFloat64(at + 7, signal.deviation ?? 0);
        at += size(signal);
    }
    file.set([0x04, signals.length], at);
    return file;
}
