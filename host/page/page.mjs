// The page: what is pressed, clicked and written goes to the sheet, and what the engine answers is shown.
import { open } from "../wasm/engine.mjs";
import { KEYS, SAME, Presses, move } from "./keys.mjs";
import { LIMIT, Sheet } from "./sheet.mjs";
import { View } from "./view.mjs";
import { grouped, pointName, refusal } from "./words.mjs";

const KINDS = ["ROUND", "SQUARE", "CURLY", "ANGLE"];
const SIGNS = ["( )", "[ ]", "{ }", "< >"];
const SHOWN_CALLS = 60;
const PRESSED_HERE = ["h", "j", "k", "l", "w", "b", "e", "ge", "W", "B", "E", "0", "^", "$", "%", "{", "}", "gg", "G", "gj", "gk", "H", "M", "L", "x", "za", "zf", "u"];

const by = (id) => document.getElementById(id);
const utf8 = (text) => new TextEncoder().encode(text);

// What `./page` puts in: the module, the declarations, the numbers of operations, the first template.
const { module, declared, names, first } = JSON.parse(by("inside").textContent);

const engine = await open(Uint8Array.from(atob(module), (c) => c.charCodeAt(0)), declared);
const sheet = new Sheet(engine, names, told);
const view = new View(sheet, by("view"), pointed);
const presses = new Presses(["x", "u", "i", "za", "zf"]);
let kind = 2;
let lastCall = "";
let lastRow = -1;

// ── Telling ──

// A call into the list, the last first.
function told(call, number) {
    lastCall = call;
    const one = document.createElement("li");
    one.className = number ? "call refused" : "call";
    one.textContent = call;
    by("calls").prepend(one);
    while (by("calls").childElementCount > SHOWN_CALLS) by("calls").lastElementChild.remove();
}

function say(id, words, good = false) {
    by(id).textContent = words;
    by(id).classList.toggle("good", good);
}

function hush() {
    for (const id of ["told", "said", "insert-told", "settings-told", "folds-told"]) say(id, "");
}

// A fact, what it is, and the call that gave it.
function fact(name, words, call) {
    const [term, detail, code] = ["dt", "dd", "code"].map((tag) => document.createElement(tag));
    term.textContent = name;
    detail.textContent = words;
    code.className = "call";
    code.textContent = call;
    detail.append(code);
    by("facts").append(term, detail);
}

// The call that put the caret where it is.
const lastCaretCall = () => by("facts").querySelector(".call")?.textContent ?? "";

const rowCol = (row, col) => `row ${row}, column ${col}`;

// Everything that is said of the caret, anew. `call` is the one that put it there.
function refresh(call = lastCall) {
    const [row, col, held, sticky, kept, offset] = sheet.caret;
    by("where").textContent = `Row ${row}, column ${col}`;
    by("pressed").textContent = String(presses);
    by("back").disabled = !sheet.before;
    showBranch();
    by("facts").replaceChildren();
    const stays = held ? `; sticky column ${grouped(sticky)}` : "";
    fact("Caret", `${rowCol(row, col)}${stays}${kept ? `; offset ${offset} is remembered` : ""}`, call);
    const x = sheet.under();
    if (x === null) fact("Character", "none: the caret stands at its row's end", "");
    else {
        const width = sheet.ask("tsivareza_character", { op: names.WIDTH + sheet.wide, x }, { op: "WIDTH" });
        fact("Character", `${pointName(x)}, of ${width.out[0]} ${width.out[0] === 1 ? "cell" : "cells"}`, width.shown);
    }
    const cell = sheet.columns("CURSOR_VISUAL_COL", row, col, { silent: false });
    fact("Cell of its row", String(cell.out[0]), cell.shown);
    if (view.wraps()) {
        const cut = sheet.wrapped(sheet.lentRow(row));
        fact("Segments of its row", String(cut.out[0]), cut.shown);
        const part = sheet.segmentOf(row, col, {});
        fact("Its segment", String(part.out[0]), part.shown);
    }
    const count = sheet.ask("tsivareza_content_row_count_u32", { text: sheet.lentText() });
    fact("Text", `${grouped(sheet.length)} code points, rows with content: ${grouped(count.out[0])}`, count.shown);
    showFolds();
    view.follow();
    speak(row, col, x);
}

// The pair of the chosen kind around the caret; "none" in words.
function showBranch() {
    const answer = sheet.pair(kind, KINDS[kind]);
    const [some, fromRow, fromCol, toRow, toCol, openRow, openCol] = answer.out;
    view.pair = some ? answer.out : null;
    const at = rowCol(...sheet.caret);
    by("branch").textContent = some
        ? `The innermost ${SIGNS[kind]} around ${at}: opened at ${rowCol(openRow, openCol)}, closed at ${rowCol(toRow, toCol)}; between them stands what is from ${rowCol(fromRow, fromCol)} up to there.`
        : `None: no pair of ${SIGNS[kind]} encloses ${at}.`;
    by("branch-call").textContent = answer.shown;
    for (const id of ["cut-inner", "cut-outer", "fold-branch"]) by(id).disabled = !some;
}

// For a screen reader: a new row is read out, else the character.
function speak(row, col, x) {
    const [start, end] = sheet.bounds(row);
    const words = String.fromCodePoint(...sheet.points(start, Math.min(end, start + 300)));
    by("live").textContent = row === lastRow ? `${rowCol(row, col)}: ${x === null ? "end of row" : pointName(x)}` : `${rowCol(row, col)}: ${words || "empty row"}`;
    lastRow = row;
}

function showFolds() {
    by("folds").replaceChildren();
    for (let i = 0; i < sheet.foldCount; i++) {
        const [from, to, closed] = sheet.fold(i);
        const one = document.createElement("li");
        one.className = "bar";
        const [toggle, drop] = [document.createElement("button"), document.createElement("button")];
        toggle.type = drop.type = "button";
        toggle.textContent = closed ? `Open rows ${from} to ${to}` : `Close rows ${from} to ${to}`;
        toggle.setAttribute("aria-pressed", closed ? "true" : "false");
        toggle.onclick = () => toggleFold(i);
        drop.textContent = "Take away";
        drop.setAttribute("aria-label", `Take away the fold of rows ${from} to ${to}`);
        drop.onclick = () => folded(allFolds().toSpliced(3 * i, 3));
        one.append(toggle, drop);
        by("folds").append(one);
    }
}

// ── Doing ──

// The caret put at a position by a click, which has no sticky column and remembers nothing.
function pointed({ row, col, fold }) {
    hush();
    if (fold !== null) return toggleFold(fold);
    sheet.caret = [row, col, 0, 0, 0, 0];
    presses.clear();
    refresh("put there by a click");
}

function pressed(key) {
    const done = presses.press(key);
    by("pressed").textContent = String(presses);
    if (!done) return;
    hush();
    if (done.unknown) return say("said", `? There is no key ${done.key}.`);
    if (done.key === "x") return removeTo((row, col) => [[row, col], [row, col + 1]]);
    if (done.key === "u") return stepBack();
    if (done.key === "i") return by("insert").focus();
    if (done.key === "za") return toggleFold(foldAt(sheet.caret[0]));
    if (done.key === "zf") return foldBranch();
    const { answer, caret, found } = move(sheet, done, { top: view.top.row, height: view.height, remembers: by("ways").value === "remembering" });
    if (answer.number) return say("said", refusal(answer.number));
    if (done.deletes && found) return removeTo((row, col) => [[row, col], caret.slice(0, 2)]);
    sheet.caret = caret;
    if (!found) say("said", done.sought ? `No ${done.sought} is found.` : "No partner is found.", true);
    refresh(answer.shown);
}

// Deletes between two positions, which are put in order.
function removeTo(stretch) {
    const [from, to] = stretch(...sheet.caret);
    const turned = to[0] < from[0] || (to[0] === from[0] && to[1] < from[1]);
    edited(turned ? sheet.remove(to, from) : sheet.remove(from, to), "said");
}

function edited(answer, where) {
    if (answer.number) return say(where, refusal(answer.number, answer.place ? `at ${answer.place}` : ""));
    refresh(answer.shown);
}

function stepBack() {
    hush();
    if (sheet.back()) refresh("put back as it was before the last edit");
    else say("said", "There is no step to go back.", true);
}

// A new text, from a file, a paste or a drop.
function opened(bytes, name) {
    hush();
    const answer = sheet.open(bytes);
    if (answer.number) {
        const place = answer.number === 13 ? `byte ${grouped(answer.place)} of ${grouped(bytes.length)}${answer.place === bytes.length ? ", where it is cut off" : ""}`
            : answer.points ? `code point ${grouped(answer.place)}` : `code point ${grouped(LIMIT)} is one too many`;
        return say("told", `${name}: ${refusal(answer.number, place)} Nothing was changed.`);
    }
    view.top = { row: 0, part: 0 };
    view.widest = 1;
    by("view").scrollTop = by("view").scrollLeft = view.seen = 0;
    refresh("put at the start of a new text");
    say("told", `${name}: ${grouped(sheet.length)} code points.`, true);
}

async function openedFile(file) {
    // a code point has at most four bytes: a longer file is not read
    if (file.size > 4 * LIMIT) {
        hush();
        return say("told", `${file.name}: ${refusal(1, `${grouped(file.size)} bytes, and so many code points have at most ${grouped(4 * LIMIT)}`)} Nothing was changed.`);
    }
    opened(new Uint8Array(await file.arrayBuffer()), file.name);
}

// ── Folds ──

const allFolds = () => Array.from(engine.view(sheet.lentFolds()));

function folded(folds) {
    hush();
    const before = sheet.caret;
    const answer = sheet.setFolds(folds);
    by("folds-call").textContent = answer.shown;
    if (answer.number) return say("folds-told", refusal(answer.number));
    refresh(sheet.caret === before ? lastCaretCall() : "put where the fold that hid it starts");
}

// The last of the folds over a row.
function foldAt(row) {
    let found = null;
    for (let i = 0; i < sheet.foldCount; i++) if (sheet.fold(i)[0] <= row && row <= sheet.fold(i)[1]) found = i;
    return found;
}

function toggleFold(at) {
    if (at === null) return say("said", "No fold is here.", true);
    const folds = allFolds();
    folds[3 * at + 2] = 1 - folds[3 * at + 2];
    folded(folds);
}

function foldBranch() {
    if (view.pair) folded([...allFolds(), view.pair[5], view.pair[3], 1]);
    else say("said", "No branch is here.", true);
}

// ── Wiring ──

by("view").addEventListener("keydown", (event) => {
    if (event.ctrlKey || event.metaKey || event.altKey) return;
    if (event.key === "Escape") {
        presses.clear();
        hush();
        by("pressed").textContent = "";
        return;
    }
    const pages = { PageDown: "j", PageUp: "k" }[event.key];
    const key = SAME[event.key] ?? event.key;
    if (!pages && key.length !== 1 && !KEYS[key]) return;
    event.preventDefault();
    if (pages) {
        presses.clear();
        for (const one of `${view.height}${pages}`) pressed(one);
    } else pressed(key);
});
by("view").addEventListener("click", () => by("view").focus());
document.addEventListener("paste", (event) => {
    if (/^(TEXTAREA|INPUT)$/.test(event.target.tagName)) return;
    event.preventDefault();
    opened(utf8(event.clipboardData.getData("text/plain")), "What was pasted");
});
document.addEventListener("dragover", (event) => event.preventDefault());
document.addEventListener("drop", (event) => {
    event.preventDefault();
    const [file] = event.dataTransfer.files;
    if (file) openedFile(file);
    else opened(utf8(event.dataTransfer.getData("text/plain")), "What was dropped");
});
by("file").onchange = async () => {
    const [file] = by("file").files;
    if (file) await openedFile(file);
    by("file").value = "";
};
by("paste").onclick = async () => {
    try {
        opened(utf8(await navigator.clipboard.readText()), "What was pasted");
    } catch {
        say("told", "The browser keeps the clipboard to itself here: press Ctrl+V (on a Mac, Command+V) in the template.");
    }
};
by("start").onclick = () => opened(utf8(first), "The first template");
by("back").onclick = stepBack;
for (const choice of document.getElementsByName("kind")) {
    choice.onchange = () => {
        kind = Number(choice.value);
        refresh(lastCaretCall());
    };
}
by("cut-inner").onclick = () => {
    hush();
    edited(sheet.remove(view.pair.slice(1, 3), view.pair.slice(3, 5)), "said");
};
by("cut-outer").onclick = () => {
    hush();
    edited(sheet.remove(view.pair.slice(5, 7), view.pair.slice(7, 9)), "said");
};
by("fold-branch").onclick = foldBranch;
by("insert-form").onsubmit = (event) => {
    event.preventDefault();
    hush();
    edited(sheet.insert(utf8(by("insert").value)), "insert-told");
    if (!by("insert-told").textContent) by("view").focus();
};
by("fold-form").onsubmit = (event) => {
    event.preventDefault();
    folded([...allFolds(), Number(by("fold-from").value), Number(by("fold-to").value), 1]);
};
by("settings").onsubmit = (event) => event.preventDefault();
by("settings").onchange = ({ target }) => {
    hush();
    const number = Number(target.value);
    let answer = null;
    if (target.id === "mode") sheet.mode = number;
    if (target.id === "wide") sheet.wide = number;
    if (target.id === "tabstop") answer = sheet.setTabstop(number);
    if (target.id === "list") answer = sheet.setList(utf8(target.value));
    if (target.id === "width") {
        if (!target.validity.valid || target.value === "") return say("settings-told", "A width is a number from 0 to 65,535.");
        sheet.width = number;
    }
    if (answer?.number) return say("settings-told", refusal(answer.number, answer.number === 21 ? `at place ${answer.place}` : ""));
    sheet.changed();
    view.widest = 1;
    refresh(lastCaretCall());
};
for (const key of PRESSED_HERE) {
    const one = document.createElement("button");
    one.type = "button";
    one.textContent = key;
    one.onclick = () => {
        for (const press of key.startsWith("g") || key.startsWith("z") ? key : [key]) pressed(press);
    };
    by("keys").append(one);
}

sheet.setList(utf8(by("list").value));
opened(utf8(first), "The first template");
sheet.before = null;
say("told", "");
refresh("put at the start");
document.documentElement.dataset.ready = "yes";
