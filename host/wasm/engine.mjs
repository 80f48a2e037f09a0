// The proved library in WebAssembly, called by its C declarations: for the page, and for node.
// It knows no text: it lends what a call takes, and hands back what the call left there.

// The C functions by name, from lines as `tools/boundary --print` writes them. A parameter is a number, a
// fixed array (`size` places), or a slice, whose length goes behind it as a size_t.
export function declarations(text) {
    const found = new Map();
    for (const line of text.trim().split("\n")) {
        const [, , name, given] = /^(\w+) (\w+)\((.*)\);$/.exec(line);
        const parameters = [];
        for (const part of given.split(", ")) {
            const [, type, star, word, size] = /^(?:const )?(\w+) (\*?)(\w+)(?:\[(\d+)\])?$/.exec(part);
            const wide = type === "uint8_t" ? 1 : 4;
            if (star) parameters.push({ name: word, kind: "slice", wide });
            else if (size) parameters.push({ name: word, kind: "fixed", wide, size: Number(size) });
            else if (type !== "size_t") parameters.push({ name: word, kind: "number" });
        }
        found.set(name, parameters);
    }
    return found;
}

// What places hold before a call, where the caller gives nothing for them.
export const FILLER = 0xa5a5a5a5;

// The library from the bytes of its module and its declarations.
export async function open(bytes, declared) {
    const { instance } = await WebAssembly.instantiate(bytes);
    return new Engine(instance.exports, declarations(declared));
}

export class Engine {
    constructor(exports, functions) {
        this.exports = exports;
        this.functions = functions;
        // pages of our own, behind those of the library; memory up to `free` is lent for good
        this.free = exports.memory.grow(1) * 65536;
    }

    // Places in the library's memory for good: `length` of them, of 1 or 4 bytes.
    lend(length, wide = 4) {
        const at = this.free;
        this.free = this.reach(at + length * wide);
        return { at, length, wide };
    }

    // Memory up to `end`; the next place of 8 bytes behind it.
    reach(end) {
        const there = this.exports.memory.buffer.byteLength;
        if (end + 8 > there) this.exports.memory.grow(Math.ceil((end + 8 - there) / 65536));
        return (end + 7) & ~7;
    }

    // What stands in lent places; it goes out of date where memory grows.
    view(lent, length = lent.length) {
        const { buffer } = this.exports.memory;
        return lent.wide === 1 ? new Uint8Array(buffer, lent.at, length) : new Uint32Array(buffer, lent.at, length);
    }

    // The first `length` of lent places, or those from `start`.
    part(lent, start, end) {
        return { at: lent.at + start * lent.wide, length: end - start, wide: lent.wide };
    }

    // Makes a call. `given` has each number, and for a slice or fixed array lent places, or values to be lent
    // for this call. The answer: its number, its place where it has one, and the fixed arrays by name.
    call(name, given) {
        const words = [];
        const lent = {};
        const fixed = [];
        const fresh = [];
        let free = this.free;
        for (const { name: word, kind, wide, size } of this.functions.get(name)) {
            const value = given[word];
            if (kind === "number") {
                words.push(value);
                continue;
            }
            let places = value;
            if (typeof value?.at !== "number") {
                const values = value ?? new Uint32Array(size).fill(FILLER);
                places = { at: free, length: kind === "fixed" ? size : values.length, wide };
                free = this.reach(free + places.length * wide);
                fresh.push([places, values]);
            }
            lent[word] = places;
            words.push(places.at);
            if (kind === "fixed") fixed.push(word);
            else words.push(BigInt(places.length));
        }
        for (const [places, values] of fresh) this.view(places).set(values);
        let number = this.exports[name](...words);
        let place = 0;
        if (typeof number === "bigint") {
            place = Number(number >> 32n);
            number = Number(number & 0xffffffffn);
        }
        const answer = { name, given, lent, number: number >>> 0, place };
        for (const word of fixed) answer[word] = this.view(lent[word]).slice();
        return answer;
    }
}
