// Types of station.mjs; TypeScript looks for them under this name.

/** Bytes of an object in a chart without stated lengths, and in one with them; objects of a chart at most. */
export declare const OBJECT: 56;
export declare const STATED_OBJECT: 64;
export declare const MOST: 16384;
/** Bytes of a player's settings; the first player's are those of the header, from byte 32 on. */
export declare const SETTINGS: 48;

/** Bits of the word of mods that comes with a call for ratings. */
export declare const MODS: Readonly<{
    autopilot: 1;
    relax: 2;
    touchDevice: 4;
    hidden: 8;
    flashlight: 16;
    traceable: 32;
    fadeOnly: 64;
}>;

/** Why a call was not carried out; it has changed nothing. */
export declare class Refusal {
    constructor(code: bigint);
    /** The number of the condition, 1 to 10. */
    readonly number: number;
    /** The offending place, 0 where the condition has none. */
    readonly place: number;
    /** The condition in words. */
    readonly words: string;
    toString(): string;
}

/** Numbers that come with a call for ratings; the last two where they are given. */
export interface RatingNumbers {
    approachRate: number;
    overallDifficulty: number;
    baseMultiplier: number;
    attractionStrength?: number;
    startScale?: number;
}

/** A part of the memory: its address, and its number of elements. */
export interface Slice {
    at: number;
    length: number;
}

/** Bytes of an object of this chart, by its word at 28. */
export declare function objectSize(bytes: Uint8Array): 56 | 64;

/** A player's tables of a chart, and what is read of them: the first player is the chart itself. */
export interface Player {
    /** How many objects the chart has, by its header. */
    get objects(): number;
    /** Null where it is carried out. */
    open(): Refusal | null;

    /** 16 numbers, in the order that include/station.h gives. */
    readRecord(place: number): Float64Array | Refusal;
    /** Aim, aim without sliders, speed, rhythm, flashlight. */
    readValues(place: number): Float64Array | Refusal;
    /** Aim with its parts and the rule that answered, 9 numbers, and the same without sliders. */
    readAimParts(place: number): Float64Array | Refusal;
    /** The rhythm value and its comparisons. */
    readRhythm(place: number): Float64Array | Refusal;

    /** Aim, aim without sliders, speed, flashlight. */
    totals(): Float64Array | Refusal;
    /** Seven counts. */
    counts(): Float64Array | Refusal;
    /** The totals after the first m objects. */
    totalsTo(m: number): Float64Array | Refusal;
    /** The totals after 0, 1 and up to all objects, four numbers each, in a list of as many entries (all, where it is left out). */
    totalsWhilePlaying(entries?: number): Float64Array | Refusal;
    /** Aim, speed and flashlight ratings and the stars. */
    ratings(mods: number, numbers: RatingNumbers): Float64Array | Refusal;
}

export declare interface Chart extends Player {}
/** A chart with the first player's tables, whose settings are the header's. */
export declare class Chart {
    /** A chart in a memory of its own, with room for as many objects more. It is not opened yet. */
    static load(module: WebAssembly.Module, bytes: Uint8Array, room?: number): Promise<Chart>;
    constructor(instance: WebAssembly.Instance, bytes: Uint8Array, room?: number);

    /** Bytes of an object. */
    readonly objectSize: 56 | 64;
    /** The whole buffer, copied. */
    get bytes(): Uint8Array;
    /** The settings of the header, copied. */
    get settings(): Uint8Array;
    /** The bytes of the object at a place, copied. */
    object(place: number): Uint8Array;

    /** For a class that stands on this one: what the calls are lent, a new slice, its bytes, whether there is a call, a call by its name, numbers that it answers, numbers read, bytes lent. */
    get slices(): { chart: Slice; records: Slice; values: Slice; scratch: Slice[]; list: Slice; numbers: Slice };
    claim(length: number, size: number): Slice;
    memory(slice: Slice): Uint8Array;
    has(name: string): boolean;
    carry(name: string, ...given: (Slice | bigint | number)[]): Refusal | null;
    numbersOf(count: number, name: string, ...given: (Slice | bigint | number)[]): Float64Array | Refusal;
    read(slice: Slice, count: number): Float64Array;
    lend(bytes: Uint8Array): Slice;

    /** Null where they are carried out. They are for both players where the second is given; else the second player's tables fall behind the chart. */
    replace(place: number, object: Uint8Array, second?: Second): Refusal | null;
    insert(place: number, object: Uint8Array, second?: Second): Refusal | null;
    remove(place: number, second?: Second): Refusal | null;
}

export declare interface Second extends Player {}
/** A second player over a chart, with settings in 48 bytes. It is not opened yet; where other settings are set, it is to be opened anew. */
export declare class Second {
    constructor(chart: Chart, settings: Uint8Array);
    get settings(): Uint8Array;
    set settings(settings: Uint8Array);
}

/** The offsets of charts in a pack put in order, the higher chart first. The first `first` offsets (none, where it is left out) and the others may be listings already. */
export declare function rank(module: WebAssembly.Module, pack: Uint8Array, offsets: number[], mods: number, numbers: RatingNumbers, first?: number): Promise<number[] | Refusal>;
