// SPDX-License-Identifier: LicenseRef-Wengeludo
/** Steam and condensate balance sheets: every call of the proved engine, for browsers and Node. */

/** Bytes in any of their forms. */
export type Bytes = Uint8Array | ArrayBuffer | ArrayBufferView;

/** A whole number. */
export type Whole = number | bigint;

/** The class of a stream: adjusted, as read, given, withheld. */
export type Kind = 'A' | 'R' | 'G' | 'W';

export type Verdict = 'pass' | 'fail' | 'none' | 'close';

export const TEXTS: Readonly<Record<number, string>>;
export const VERDICTS: readonly Verdict[];
export const CALLS: Readonly<Record<string, readonly string[]>>;
export const VERSION: string;
export const SHEET_SIZE: number;
export const FILE_SIZE: number;
export const MAX_STREAMS: number;
export const MAX_PLACES: number;
export const SURVEY_SIZE: number;
export const OFFICES: number;
export const WIDEST: number;

/** A call was refused. Nothing was written, no sheet number was drawn. */
export class Refusal extends Error {
    constructor(number: number, marked?: bigint);
    /** 1 to 26. */
    readonly number: number;
    /** What the number says. */
    readonly text: string;
    /** With 19 of balancePlant, the marked places: they must take in more than they can let out. Else empty. */
    readonly places: readonly number[];
}

/** A stream from one place to another; place 0 is the outside. Without a weight it is unmetered; low and high, both or neither. */
export interface Stream {
    from: Whole;
    to: Whole;
    weight?: Whole | null;
    reading?: Whole;
    low?: Whole | null;
    high?: Whole | null;
}

/** A stream as a plant file has it. */
export interface StreamRead {
    from: number;
    to: number;
    weight?: number;
    reading?: number;
    low?: number;
    high?: number;
}

/** What a transmitter sends of a stream. Without a value: a fault. */
export interface Signal {
    from: Whole;
    to: Whole;
    value?: number | null;
    deviation?: number;
    held?: boolean;
}

/** A stream's class, and its flow where there is one. */
export interface SheetRecord {
    kind: Kind;
    flow: bigint | null;
}

/** A sheet as the sheet reader reads it. `plain`: the total is of the kind without an office, 0x1F. */
export class Sheet {
    constructor(parts: Omit<Sheet, 'toString'>);
    records: SheetRecord[];
    office: number;
    number: number;
    cost: bigint;
    degrees: number;
    verdict: Verdict;
    plain: boolean;
    /** The listing, as the program `balance` prints it. */
    toString(): string;
}

/** The engine's calls. Each throws a Refusal if it is refused, and a TypeError for what is no whole number or no bytes. */
export class Engine {
    private constructor();
    version(): string;
    balancePlant(file: Bytes, office?: Whole, lasts?: ArrayLike<Whole>): { sheet: Uint8Array; lasts: number[] };
    readSheet(bytes: Bytes): Sheet;
    balance(file: Bytes): Sheet;
    writePlant(units: Whole, streams: readonly Stream[]): Uint8Array;
    readPlant(file: Bytes): { units: number; streams: StreamRead[] };
    toRanged(file: Bytes): Uint8Array;
    fromRanged(file: Bytes): Uint8Array;
    plantFromTransmitter(file: Bytes): Uint8Array;
    metersToBuy(file: Bytes, prices: Iterable<Whole>): { streams: number[]; price: number };
    layoutsOf(file: Bytes): number[];
    visits(file: Bytes): { stream: number; cost: bigint }[];
    charges(file: Bytes, rates: Iterable<Whole>): { charges: { stream: number; cents: bigint }[]; bill: bigint };
    checkSheet(plant: Bytes, sheet: Bytes, numbers: Iterable<Whole>): void;
    checkFlow(units: Whole, streams: readonly Stream[], flows: Iterable<Whole>, numbers: Iterable<Whole>): void;
    placeNumbers(file: Bytes): bigint[];
}

/** Loads the engine from the bytes of its WebAssembly module. */
export function load(bytes: Bytes): Promise<Engine>;

/** A transmitter file of its parts. */
export function transmitterFile(units: Whole, signals: readonly Signal[]): Uint8Array;
