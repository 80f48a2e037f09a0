// The library in WebAssembly against the oracle's answers, under node:
//     node host/wasm/try.mjs MODULE DECLARATIONS [--some] <rows
// A row is one that `oracle rows` or `oracle replay` writes (oracle/src/replay.rs has its form). Each call
// runs on code points and on bytes. Prints how many of each C function ran and how many differ; without --some
// it fails where one of them did not run.
import { readFileSync } from "node:fs";
import { createInterface } from "node:readline";
import { FILLER, open } from "./engine.mjs";

const engine = await open(readFileSync(process.argv[2]), readFileSync(process.argv[3], "utf8"));
const counts = new Map();
for (const name of engine.functions.keys()) counts.set(name, 0);
let rows = 0;
let differ = 0;

const filled = (n, filler = FILLER) => new Uint32Array(n).fill(filler);
const bytesOf = (points) => new Uint8Array(Uint32Array.from(points).buffer);

// What a call leaves, as numbers: its number, then these places.
function made(name, given, left, placed = false) {
    counts.set(name, counts.get(name) + 1);
    const answer = engine.call(name, given);
    const told = placed ? [answer.number, answer.place] : [answer.number];
    return told.concat(...left.map((word) => Array.from(engine.view(answer.lent[word]))));
}

// Both forms of a call; `points` names what goes as code points, or as bytes with a room for them.
function forms(stem, given, points, left, placed = false) {
    const bytes = { ...given };
    let room = 0;
    for (const word of points) {
        bytes[word] = bytesOf(given[word]);
        room += given[word].length;
    }
    return [
        made(`tsivareza_${stem}_u32`, given, left, placed),
        made(`tsivareza_${stem}`, { ...bytes, room: filled(room) }, left, placed),
    ];
}

// The row starts of a text, by the library itself, and how many rows have content; of a text that is refused, none.
function tableOf(text) {
    const { number, out, lent } = engine.call("tsivareza_row_starts_u32", { text, starts: filled(text.length + 1) });
    return number === 0 ? { starts: engine.view(lent.starts).slice(), content: out[0] } : { starts: [], content: 0 };
}

// Both forms of a motion, and both with the text's table, which answer the same.
function motions(stem, given, points) {
    return [...forms(stem, given, points, ["out"]), ...forms(`${stem}_rows`, { ...given, ...tableOf(given.text) }, points, ["out"])];
}

// A single jump, both forms, as the single call answers it, which may tell something before the caret.
function jumped(kind, count, given, told = () => []) {
    const all = { folds: [], list: [], ...given, ...tableOf(given.text), kept: 1, offset: 3, pairs: [kind, count], answers: filled(2) };
    return forms("jumps", all, ["text", "folds", "list"], ["out", "answers"]).map(([number, row, col, held, sticky, ...after]) => {
        const left = number === 0 ? [0, 0, row, col] : [FILLER, FILLER, FILLER, FILLER];
        const before = number === 0 ? told(row, col) : told(row, col).map(() => FILLER);
        const same = after.length === 4 && after.every((x, i) => x === left[i]);
        return same ? [number, ...before, row, col, held, sticky] : [number, row, col, held, sticky, ...after];
    });
}

// The motions by their groups: the call, what it is given, and what of that goes as code points.
const MOTIONS = {
    8: ({ op, n, text }) => ["motion", { op, text, ...caret(n), count: n[4] }, ["text"]],
    9: ({ op, n, text }) => ["seek", { op, text, ...caret(n), x: n[4] }, ["text"]],
    10: ({ op, n, text, folds, list }) => ["word", { op, text, folds, list, ...caret(n), count: n[4], big: n[5] }, ["text", "folds", "list"]],
    11: ({ op, n, text, folds }) =>
        ["vertical", { op, text, folds, ...caret(n), count: n[4], tabstop: n[5], mode: n[6], width: n[7] }, ["text", "folds"]],
    12: ({ op, n, text }) => ["viewport", { op, text, ...caret(n), offset: n[4], top: n[5], height: n[6] }, ["text"]],
    18: ({ op, n, text, folds, list: [kept, offset] }) =>
        ["screen_kept", { op, text, folds, ...caret(n), kept, offset, count: n[4], tabstop: n[5], mode: n[6], width: n[7] }, ["text", "folds"]],
};

// The first operations of these groups with a table.
const TABLED = [[800, 18], [700, 9], [600, 12], [300, 11], [200, 10], [100, 8]];

// An edit that keeps a table.
function kept({ op, n, text, folds, content, starts, own }) {
    const given = { text, folds, starts, row: n[0], col: n[1], end_row: n[2], end_col: n[3], caret: [n[6], n[7], 1, 7, 1, 3], sizes: [n[4], n[5], content] };
    const left = ["caret", "sizes", "text", "folds", "starts"];
    return op === 1 ? forms("insert_rows", { ...given, points: own }, ["points"], left) : [made("tsivareza_delete_rows", given, left)];
}

// A `%` as a single jump, which moves where it finds a partner.
const partner = ({ n, text }) => jumped(3, n[4], { text, ...caret(n) }, (row, col) => [Number(row !== n[0] || col !== n[1])]);

// The call that each group stands for. `n` has its numbers.
const GROUPS = {
    0: ({ op, n }) => [made("tsivareza_character", { op, x: n[0] }, ["out"])],
    1: ({ op, n, list }) => forms("keywords", { op, list, x: n[0] }, ["list"], ["out"]),
    2: ({ op, n, text }) => forms("columns", { op, row: text, col: n[0], tabstop: n[1] }, ["row"], ["out"]),
    3: ({ op, n, text }) => forms("offsets", { op, row: text, start: n[0], end: n[1], at: n[2] }, ["row"], ["out"]),
    4: ({ n, list }) => forms("segment_for_col", { segments: list, col: n[0] }, ["segments"], ["out"]),
    5: ({ op, n, text }) => forms("wrap_segments", { mode: op, row: text, width: n[0], segments: filled(n[1]) }, ["row"], ["out", "segments"]),
    6: ({ text }) => forms("content_row_count", { text }, ["text"], ["out"]),
    7: ({ n, text }) => forms("matching_bracket_pos", { text, row: n[0], col: n[1] }, ["text"], ["out"]),
    8: (row) => motions(...MOTIONS[8](row)),
    9: (row) => [...motions(...MOTIONS[9](row)), ...(row.op === 0 ? partner(row) : [])],
    10: (row) => [
        ...motions(...MOTIONS[10](row)),
        ...(row.op < 3 && row.n[5] === 0 ? jumped(row.op, row.n[4], { text: row.text, folds: row.folds, list: row.list, ...caret(row.n) }) : []),
    ],
    11: (row) => motions(...MOTIONS[11](row)),
    12: (row) => motions(...MOTIONS[12](row)),
    13: ({ op, n, text }) => forms("inner_pair", { kind: op, text, row: n[0], col: n[1] }, ["text"], ["out"]),
    14: ({ n, text }) => [made("tsivareza_utf8_decode", { bytes: Uint8Array.from(text), points: filled(n[0]) }, ["out", "points"], true)],
    15: ({ n, text }) => forms("utf8_encode", { points: text, bytes: filled(n[0], 165) }, ["points"], ["out", "bytes"]),
    16: ({ op, n, list }) => forms("enter", { op, list, x: n[0] }, ["list"], ["out"], true),
    17: ({ n, list }) => forms("without_plus", { list, written: filled(n[0]) }, ["list"], ["out", "written"]),
    18: (row) => motions(...MOTIONS[18](row)),
    19: ({ op, n, text, folds, list }) => {
        const given = { text, folds, row: n[0], col: n[1], end_row: n[2], end_col: n[3], caret: [n[6], n[7], 1, 7, 1, 3], sizes: [n[4], n[5]] };
        const left = ["caret", "sizes", "text", "folds"];
        return op === 0 ? forms("insert", { ...given, points: list }, ["points"], left) : [made("tsivareza_delete", given, left)];
    },
    20: ({ op, n, text, folds, list }) => op === 0
        ? forms("folds_write", { text, folds, file: filled(n[0], 165) }, ["text", "folds"], ["out", "file"])
        : forms("folds_read", { text, file: list, folds: filled(n[0]) }, ["text"], ["out", "folds"]),
    21: ({ op, n, text, folds, list }) => op === 5
        ? forms("word_classes", { text, list, classes: filled(n[6], 165) }, ["text", "list"], ["out", "classes"])
        : forms("word_by_class", { op, text, folds, list, ...caret(n), count: n[4], big: n[5], classes: filled(n[6], 165) },
            ["text", "folds", "list"], ["out", "classes"]),
    22: ({ op, n, text, folds, list }) => {
        if (op === 0) return forms("row_starts", { text, starts: list }, ["text"], ["out", "starts"]);
        const [content, places] = list;
        const [starts, own] = [list.slice(2, 2 + places), list.slice(2 + places)];
        if (op < 3) return kept({ op, n, text, folds, content, starts, own });
        const [first, group] = TABLED.find(([first]) => op >= first);
        const [stem, given, points] = MOTIONS[group]({ op: op - first, n, text, folds, list: own });
        return forms(`${stem}_rows`, { ...given, starts, content }, points, ["out"]);
    },
    23: ({ op, n, list }) => op === 2
        ? forms("vim_write", { list, written: filled(n[0]) }, ["list"], ["out", "written"], true)
        : forms("vim_list", { op, list, x: n[0] }, ["list"], ["out"], true),
    24: ({ n, text, folds, list }) => {
        const [places, numbers] = list;
        const [pairs, words] = [2 + places, 2 + places + numbers];
        const given = { text, folds, ...caret(n), kept: n[4], offset: n[5], content: n[7], starts: list.slice(2, pairs),
            pairs: list.slice(pairs, words), list: list.slice(words), answers: filled(n[6]) };
        return forms("jumps", given, ["text", "folds", "list"], ["out", "answers"]);
    },
    25: ({ op, n, text, folds, list }) =>
        forms("word_vim", { op, text, folds, list, ...caret(n), count: n[4], big: n[5] }, ["text", "folds", "list"], ["out"], true),
    102: ({ text }) => {
        counts.set("tsivareza_session", counts.get("tsivareza_session") + 1);
        const { number, out } = engine.call("tsivareza_session", { input: Uint8Array.from(text), out: new Uint8Array(393240) });
        return [Array.from(out.subarray(0, number))];
    },
};

const caret = ([row, col, held, sticky]) => ({ row, col, held, sticky });

// The numbers of a row; `3*97` is 97 three times.
function numbersOf(line) {
    const all = [];
    for (const word of line.split(" ")) {
        const [times, value] = word.includes("*") ? word.split("*") : [1, word];
        for (let i = 0; i < Number(times); i++) all.push(Number(value));
    }
    return all;
}

function run(line) {
    const all = numbersOf(line);
    const [group, op] = all;
    const parts = [];
    let at = 13;
    for (const length of all.slice(10, 13)) parts.push(all.slice(at, (at += length)));
    const wanted = all.slice(at);
    const [text, folds, list] = parts;
    if (!GROUPS[group]) throw new Error(`row ${rows}: group ${group} is not known here`);
    for (const got of GROUPS[group]({ op, n: all.slice(2, 10), text, folds, list })) {
        if (got.length === wanted.length && got.every((x, i) => x === wanted[i])) continue;
        differ += 1;
        if (differ === 1) console.log(`row ${rows} differs: ${line.slice(0, 2000)}\n  the oracle ${wanted.join(" ")}\n  the module ${got.join(" ")}`);
    }
}

for await (const line of createInterface({ input: process.stdin })) {
    rows += 1;
    run(line);
}
let calls = 0;
for (const [name, count] of counts) {
    calls += count;
    console.log(`${name} ${count}`);
    if (count > 0 || process.argv[4] === "--some") continue;
    console.log(`FAILED: ${name} did not run`);
    differ += 1;
}
console.log(`wasm: ${rows} cases, ${calls} calls of ${counts.size} C functions, ${differ} differ`);
process.exit(differ === 0 && rows > 0 ? 0 : 1);
