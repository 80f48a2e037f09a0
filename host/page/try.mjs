// The page in Chromium, driven as a person would: clicks, keys, paste, drop and files, and what it shows
// against what the library's exports answer under node.
//     node host/page/try.mjs PAGE MODULE DECLARATIONS NAMES [PICTURES]
// PICTURES is a folder for pictures of it. The browser is driven by its own protocol over a pipe.
import { spawn } from "node:child_process";
import { existsSync, mkdtempSync, readFileSync, rmSync, writeFileSync } from "node:fs";
import { tmpdir } from "node:os";
import { join, resolve } from "node:path";
import { open } from "../wasm/engine.mjs";

const [page, module, declared, named, pictures] = process.argv.slice(2);
const engine = await open(readFileSync(module), readFileSync(declared, "utf8"));
const names = JSON.parse(readFileSync(named, "utf8"));
const room = mkdtempSync(join(tmpdir(), "page-"));
let checks = 0;
let failed = 0;

function check(what, got, wanted) {
    checks += 1;
    if (JSON.stringify(got) === JSON.stringify(wanted)) return;
    failed += 1;
    if (failed <= 10) console.log(`FAILED: ${what}: the page has ${JSON.stringify(got)}, the exports ${JSON.stringify(wanted)}`);
}

// ── The browser ──

const program = ["chromium", "chromium-browser", "google-chrome"].map((name) => `/usr/bin/${name}`).find(existsSync);
const words = ["--headless=new", "--no-sandbox", "--disable-gpu", "--disable-dev-shm-usage", "--no-first-run", "--remote-debugging-pipe", `--user-data-dir=${room}/profile`];
const browser = spawn(program, [...words, "about:blank"], { stdio: ["ignore", "ignore", "ignore", "pipe", "pipe"] });
const waiting = new Map();
const heard = [];
let last = 0;
let rest = "";
browser.stdio[4].setEncoding("utf8");
browser.stdio[4].on("data", (data) => {
    const parts = (rest + data).split("\0");
    rest = parts.pop();
    for (const message of parts.map((part) => JSON.parse(part))) {
        if (!message.id) heard.push(message);
        else {
            const [good, bad] = waiting.get(message.id);
            waiting.delete(message.id);
            if (message.error) bad(new Error(`${message.error.message}`));
            else good(message.result);
        }
    }
});
let session;
function send(method, params = {}) {
    last += 1;
    browser.stdio[3].write(`${JSON.stringify({ id: last, method, params, ...(session ? { sessionId: session } : {}) })}\0`);
    const id = last;
    return new Promise((good, bad) => waiting.set(id, [good, bad]));
}
const pause = (ms) => new Promise((done) => setTimeout(done, ms));
// Waits for what the page does in its own time, for at most half a minute: is it there?
async function until(there) {
    for (const from = performance.now(); performance.now() - from < 30000; await pause(50)) if (await there()) return true;
    return false;
}

async function ask(expression) {
    const { result, exceptionDetails } = await send("Runtime.evaluate", { expression, awaitPromise: true, returnByValue: true });
    if (exceptionDetails) throw new Error(`${expression}: ${exceptionDetails.exception?.description ?? exceptionDetails.text}`);
    return result.value;
}
const text = (id) => ask(`document.getElementById(${JSON.stringify(id)}).textContent`);

const CODES = { Tab: 9, Enter: 13, Backspace: 8, Escape: 27, ArrowLeft: 37, ArrowUp: 38, ArrowRight: 39, ArrowDown: 40, PageUp: 33, PageDown: 34, Home: 36, End: 35 };
async function press(key, more = {}) {
    const printed = key.length === 1 ? { text: key } : key === "Enter" ? { text: "\r" } : {};
    const code = CODES[key] ?? key.toUpperCase().charCodeAt(0);
    await send("Input.dispatchKeyEvent", { type: "keyDown", key, windowsVirtualKeyCode: code, ...(more.commands ? {} : printed), ...more });
    await send("Input.dispatchKeyEvent", { type: "keyUp", key, windowsVirtualKeyCode: code, ...(more.modifiers ? { modifiers: more.modifiers } : {}) });
}
async function type(keys) {
    for (const key of keys) await press(key);
}
async function clickAt(x, y) {
    for (const kind of ["mousePressed", "mouseReleased"]) await send("Input.dispatchMouseEvent", { type: kind, x, y, button: "left", clickCount: 1 });
}
async function click(id) {
    const [x, y] = await ask(`(() => { const one = document.getElementById("${id}"); one.scrollIntoView({ block: "center" }); const b = one.getBoundingClientRect(); return [b.x + b.width / 2, b.y + b.height / 2]; })()`);
    await clickAt(x, y);
}
// Puts a value into a field as a person does: all of it marked, then typed over.
async function write(id, value) {
    await ask(`document.getElementById("${id}").focus()`);
    await press("a", { modifiers: 2, commands: ["selectAll"] });
    await send("Input.insertText", { text: value });
    await ask(`document.getElementById("${id}").dispatchEvent(new Event("change", { bubbles: true }))`);
}
async function choose(id, value) {
    await ask(`(() => { const one = document.getElementById("${id}"); one.value = "${value}"; one.dispatchEvent(new Event("change", { bubbles: true })); })()`);
}
// What the page tells of a text that comes from outside, when it has come. One that the browser loses on the way is brought again, as a person does.
async function telling(name, bring) {
    await ask(`document.getElementById("told").textContent = ""`);
    for (let times = 1; times <= 3; times++) {
        await bring();
        if (await until(async () => (await text("told")).startsWith(`${name}:`))) break;
        console.log(`${name} was brought ${times} times, and the page tells nothing of it`);
    }
    return text("told");
}
async function openFile(name, bytes) {
    const path = join(room, name);
    writeFileSync(path, bytes);
    const { root } = await send("DOM.getDocument");
    const { nodeId } = await send("DOM.querySelector", { nodeId: root.nodeId, selector: "#file" });
    return telling(name, () => send("DOM.setFileInputFiles", { files: [path], nodeId }));
}

// ── What the page shows ──

const where = async () => (await text("where")).match(/\d+/g).map(Number);
// The drawn lines: row, text, and for each run of characters the cell that it starts in.
const drawn = () => ask(`(() => {
    const paper = document.querySelector(".paper");
    const probe = document.createElement("span");
    probe.className = "probe"; probe.textContent = "0".repeat(100); paper.append(probe);
    const cell = probe.getBoundingClientRect().width / 100;
    probe.remove();
    const left = Math.round(document.getElementById("view").scrollLeft / cell);
    return [...paper.querySelectorAll(".line")].map((line) => ({
        row: Number(line.dataset.row),
        text: [...line.querySelectorAll(".run")].map((run) => run.textContent).join(""),
        runs: [...line.querySelectorAll(".run")].map((run) => [Math.round(parseFloat(run.style.left) / cell) - 7 + left, Math.round(parseFloat(run.style.width) / cell), run.textContent]),
        marks: [...line.querySelectorAll(".bracket")].map((one) => Math.round(parseFloat(one.style.left) / cell) - 7 + left),
        shaded: [...line.querySelectorAll(".branch")].length,
        caret: [...line.querySelectorAll(".caret")].map((one) => Math.round(parseFloat(one.style.left) / cell) - 7 + left)[0] ?? null,
    }));
})()`);

// A scroll is told to the page in the next frame.
const drawnAgain = () => ask("new Promise((done) => requestAnimationFrame(() => requestAnimationFrame(() => done(true))))");

const pointsOf = (string) => Array.from(string, (c) => c.codePointAt(0));
const rowsOf = (string) => string.split("\n");
const call = (name, given) => engine.call(`tsivareza_${name}`, given);

// ── The trial ──

async function run() {
    const { targetId } = await send("Target.createTarget", { url: "about:blank" });
    ({ sessionId: session } = await send("Target.attachToTarget", { targetId, flatten: true }));
    for (const domain of ["Page", "Runtime", "Network", "DOM", "Log"]) await send(`${domain}.enable`);
    await send("Emulation.setDeviceMetricsOverride", { width: 1280, height: 900, deviceScaleFactor: 1, mobile: false });
    await send("Network.emulateNetworkConditions", { offline: true, latency: 0, downloadThroughput: 0, uploadThroughput: 0 });
    await send("Page.navigate", { url: `file://${resolve(page)}` });
    const ready = () => ask("document.documentElement?.dataset.ready");
    await until(async () => (await ready()) === "yes");
    check("the page is ready", await ready(), "yes");

    const first = readFileSync(new URL("start.txt", import.meta.url), "utf8");
    if (pictures) await picture("wide-light");
    await shows("the first template", first);
    await clicks(first);
    await keys(first);
    await others(first);
    await pairs(first);
    await wraps();
    await folds(first);
    await edits(first);
    await pastes(first);
    await refusals(first);
    await access();
    await million();
    if (pictures) await phones();

    const fetched = heard.filter((m) => m.method === "Network.requestWillBeSent").map((m) => m.params.request.url).filter((url) => !url.startsWith("data:"));
    check("what is fetched", fetched, [`file://${resolve(page)}`]);
    const stopped = heard.filter((m) => m.method === "Runtime.exceptionThrown" || (m.method === "Log.entryAdded" && m.params.entry.level === "error"));
    check("errors in the page", stopped.map((m) => JSON.stringify(m.params).slice(0, 600)), []);
}

// Every row of a small text, character by character in its cell, and the caret's cell.
async function shows(what, wanted, folded = []) {
    const lines = await drawn();
    const rows = rowsOf(wanted);
    const points = pointsOf(wanted);
    const visible = [0];
    for (let at = 0; ; ) {
        const { out } = call("vertical_u32", { op: names.MOVE_DOWN, text: points, folds: folded, row: at, col: 0, held: 0, sticky: 0, mode: 0, width: 0, count: 1, tabstop: 8 });
        if (out[0] === at) break;
        visible.push((at = out[0]));
    }
    check(`${what}: rows`, lines.map((line) => line.row), visible.slice(0, lines.length));
    for (const { row, text: seen, runs } of lines) {
        // a row that is wider than the view is cut there
        check(`${what}: row ${row}`, seen, seen.length > 60 ? rows[row].slice(0, seen.length) : rows[row]);
        let col = 0;
        for (const [cell, , run] of runs) {
            const { out } = call("columns_u32", { op: names.CHAR_COL_TO_VISUAL_COL, row: pointsOf(rows[row]), col, tabstop: 8 });
            check(`${what}: cell of row ${row}, column ${col}`, cell, out[0]);
            col += Array.from(run).length;
        }
    }
}

async function boxOf() {
    return ask(`(() => { document.getElementById("view").scrollIntoView(); const b = document.querySelector(".paper").getBoundingClientRect(); const line = document.querySelector(".line").getBoundingClientRect(); const probe = document.createElement("span"); probe.className = "probe"; probe.textContent = "0".repeat(100); document.querySelector(".paper").append(probe); const cell = probe.getBoundingClientRect().width / 100; probe.remove(); return { x: b.x, y: b.y, cell, line: line.height }; })()`);
}

async function clickCell(line, cell) {
    const box = await boxOf();
    await clickAt(box.x + (7 + cell + 0.5) * box.cell, box.y + (line + 1.5) * box.line);
}

async function clicks(shown) {
    const rows = rowsOf(shown);
    for (const [row, cell] of [[3, 5], [4, 12], [0, 0], [8, 70], [2, 9], [12, 24], [1, 11]]) {
        await clickCell(row, cell);
        const { out } = call("columns_u32", { op: names.VISUAL_COL_TO_CHAR_COL, row: pointsOf(rows[row]), col: cell, tabstop: 8 });
        check(`click at row ${row}, cell ${cell}`, await where(), [row, out[0]]);
        const seen = await drawn();
        const { out: at } = call("columns_u32", { op: names.CHAR_COL_TO_VISUAL_COL, row: pointsOf(rows[row]), col: out[0], tabstop: 8 });
        check(`the caret's cell after a click`, seen.find((line) => line.row === row).caret, at[0]);
    }
    await clickCell(0, 0);
}

// Random keys of a session with counts, against the session itself.
async function keys(shown) {
    const all = "h l w b e W B E ge gE 0 ^ $ g_ { } [[ ]] [] ][ + - _ gg G | % j k".split(" ");
    let state = 7;
    const dice = (n) => ((state = (state * 1103515245 + 12345) % 2147483648) >> 8) % n;
    const rows = [];
    const seen = [];
    for (let i = 0; i < 260; i++) {
        const key = all[dice(all.length)];
        const count = key !== "0" && dice(3) === 0 ? 1 + dice(12) : 0;
        rows.push(count ? `${key} ${count}` : key);
        await type(`${count || ""}${key}`);
        seen.push(`${key} ${(await where()).join(" ")}`);
    }
    const input = new TextEncoder().encode(`${rows.join("\n")}\n.\n${shown}`);
    const { number, out } = call("session", { input, out: new Uint8Array(393240) });
    const wanted = new TextDecoder().decode(out.subarray(0, number)).trim().split("\n");
    for (let i = 0; i < seen.length; i++) check(`key ${i}, ${rows[i]}`, seen[i], wanted[i]);
    await type("gg0");
}

// `f`, `t`, the viewport and arrow keys.
async function others(shown) {
    const points = pointsOf(shown);
    const at = { text: points, held: 0, sticky: 0 };
    const seek = (op, x, row, col) => Array.from(call("seek_u32", { op, ...at, row, col, x: x.codePointAt(0) }).out.slice(0, 3));
    for (const [keysOf, op, x] of [["f{", 2, "{"], ["t}", 4, "}"], ["F{", 1, "{"], ["T(", 3, "("], ["fé", 2, "é"], ["fq", 2, "q"]]) {
        for (const row of [1, 3]) {
            await type(`gg0${row}j4l`);
            const [r, c] = await where();
            await type(keysOf);
            const [found, toRow, toCol] = seek(op, x, r, c);
            check(`${keysOf} from ${r},${c}`, await where(), found ? [toRow, toCol] : [r, c]);
            check(`${keysOf}: what is said`, (await text("said")) !== "", found === 0);
        }
    }
    await type("gg");
    for (const [key, op] of [["L", "MOVE_VIEWPORT_BOTTOM"], ["M", "MOVE_VIEWPORT_MIDDLE"], ["H", "MOVE_VIEWPORT_TOP"]]) {
        const [row, col] = await where();
        await type(key);
        const shownCall = await ask(`document.querySelector("#facts .call").textContent`);
        const [top, height] = ["top", "height"].map((word) => Number(new RegExp(`${word} (\\d+)`).exec(shownCall)[1]));
        check(key, await where(), Array.from(call("viewport_u32", { op: names[op], ...at, row, col, top, height, offset: 0 }).out.slice(0, 2)));
    }
    await type("gg0");
    await press("ArrowDown");
    await press("ArrowRight");
    check("arrow keys", await where(), [1, 1]);
    await press("End");
    check("End", (await where())[1] > 1, true);
    await type("gx");
    check("an unknown key", (await text("said")).startsWith("?"), true);
    await type("gg0");
}

async function pairs(shown) {
    const points = pointsOf(shown);
    for (const row of [4, 6, 8, 1, 12]) {
        await type(`gg0${row}j12l`);
        const [r, c] = await where();
        for (let kind = 0; kind < 4; kind++) {
            await ask(`document.querySelectorAll("[name=kind]")[${kind}].click()`);
            const { out } = call("inner_pair_u32", { kind, text: points, row: r, col: c });
            const said = (await text("branch")).match(/\d+/g).map(Number);
            const seen = await drawn();
            const marks = seen.flatMap((line) => line.marks.map((cell) => [line.row, cell]));
            if (out[0]) {
                check(`pair ${kind} at ${r},${c}`, said, [r, c, out[5], out[6], out[3], out[4], out[1], out[2]]);
                check(`brackets of pair ${kind} at ${r},${c}`, marks, [[out[5], out[6]], [out[3], out[4]]]);
                check(`shaded rows of pair ${kind}`, seen.filter((line) => line.shaded).every((line) => line.row >= out[1] && line.row <= out[3]), true);
            } else {
                check(`pair ${kind} at ${r},${c}, said`, (await text("branch")).startsWith("None: no pair"), true);
                check(`pair ${kind} at ${r},${c}, marks`, [marks, seen.filter((line) => line.shaded).length], [[], 0]);
            }
        }
        await ask(`document.querySelectorAll("[name=kind]")[2].click()`);
    }
    await ask(`document.getElementById("view").focus()`);
}

// Wrapped rows against wrap_segments, and the screen moves both ways.
async function wraps() {
    const first = readFileSync(new URL("start.txt", import.meta.url), "utf8");
    const points = pointsOf(first);
    const at = { text: points, folds: [], tabstop: 8 };
    for (const [mode, width, wide] of [[1, 30, 0], [2, 30, 0], [2, 24, 256], [1, 17, 256]]) {
        await choose("mode", mode);
        await choose("wide", wide);
        await write("width", String(width));
        await click("view");
        await type("gg0");
        const wanted = [];
        rowsOf(first).forEach((row, number) => {
            const line = pointsOf(row);
            const { out, lent } = call("wrap_segments_u32", { mode: mode + wide, row: line, width, segments: new Uint32Array(2 * line.length + 2) });
            const cut = Array.from(engine.view(lent.segments)).slice(0, 2 * out[0]);
            for (let i = 0; i < out[0]; i++) wanted.push([number, String.fromCodePoint(...line.slice(cut[2 * i], cut[2 * i + 1]))]);
        });
        const seen = (await drawn()).map((line) => [line.row, line.text]);
        check(`wrapped, mode ${mode}, width ${width}, wide ${wide}`, seen, wanted.slice(0, seen.length));
        for (const way of ["old", "remembering"]) {
            await choose("ways", way);
            await ask(`document.getElementById("view").focus()`);
            await type("gg07l");
            let [row, col, held, sticky, kept, offset] = [...(await where()), 0, 0, 0, 0];
            for (const keysOf of ["gj", "gj", "3gj", "gk", "5gj", "2gk", "gj"]) {
                const down = keysOf.endsWith("j");
                const count = Number(keysOf.match(/\d*/)[0] || 0);
                const given = { ...at, row, col, held, sticky, mode, width, count };
                [row, col, held, sticky, kept, offset] = way === "old"
                    ? call("vertical_u32", { ...given, op: names[down ? "MOVE_SCREEN_DOWN" : "MOVE_SCREEN_UP"] + wide }).out
                    : call("screen_kept_u32", { ...given, kept, offset, op: names[down ? "MOVE_SCREEN_DOWN_KEPT" : "MOVE_SCREEN_UP_KEPT"] + wide }).out;
                await type(keysOf);
                check(`${keysOf}, ${way}, mode ${mode}, width ${width}`, await where(), [row, col]);
            }
        }
    }
    if (pictures) await picture("wrapped");
    await choose("mode", 0);
    await choose("wide", 0);
    await choose("ways", "old");
    await ask(`document.getElementById("view").focus()`);
    await type("gg0");
}

async function folds(shown) {
    await write("fold-from", "3");
    await write("fold-to", "10");
    await press("Enter");
    await shows("a closed fold", shown, [3, 10, 1]);
    await ask(`document.getElementById("view").focus()`);
    await type("gg04j");
    const points = pointsOf(shown);
    const { out } = call("vertical_u32", { op: names.MOVE_DOWN, text: points, folds: [3, 10, 1], row: 0, col: 0, held: 0, sticky: 0, mode: 0, width: 0, count: 4, tabstop: 8 });
    check("4j over a fold", await where(), Array.from(out.slice(0, 2)));
    await type("k");
    await type("za");
    await shows("the fold opened", shown, [3, 10, 0]);
    await clickAt(...(await ask(`(() => { const b = document.querySelector(".gutter.fold").getBoundingClientRect(); return [b.x + b.width / 2, b.y + b.height / 2]; })()`)));
    await shows("the fold closed by its mark", shown, [3, 10, 1]);
    if (pictures) await picture("folded");
    await ask(`document.querySelectorAll("#folds button")[1].click()`);
    await shows("no fold", shown);
}

async function edits(shown) {
    let points = pointsOf(shown);
    await ask(`document.getElementById("view").focus()`);
    await type("gg03j");
    await write("fold-from", "11");
    await write("fold-to", "13");
    await press("Enter");
    const buffer = (grown) => [...points, ...new Array(grown).fill(0)];
    const after = (answer) => String.fromCodePoint(...Array.from(engine.view(answer.lent.text)).slice(0, answer.sizes[0]));
    let [row, col] = await where();
    const put = "été →\nneuf ";
    let answer = call("insert_u32", { text: buffer(40), folds: [11, 13, 1, 0, 0, 0], points: pointsOf(put), row, col, caret: [row, col, 0, 0, 0, 0], sizes: [points.length, 1] });
    await write("insert", put);
    await click("insert-form");
    await ask(`document.querySelector("#insert-form button").click()`);
    const inserted = after(answer);
    check("the caret after an insert", await where(), Array.from(answer.caret.slice(0, 2)));
    const folded = Array.from(engine.view(answer.lent.folds)).slice(0, 3);
    await shows("after an insert", inserted, folded);
    await click("back");
    await shows("one step back", shown, [11, 13, 1]);
    check("the caret one step back", await where(), [row, col]);

    await ask(`document.getElementById("view").focus()`);
    await type("gg03j$h%");
    await type("j4l");
    [row, col] = await where();
    const { out: pair } = call("inner_pair_u32", { kind: 2, text: points, row, col });
    answer = call("delete", { text: points, folds: [11, 13, 1], row: pair[1], col: pair[2], end_row: pair[3], end_col: pair[4], caret: [row, col, 0, 0, 0, 0], sizes: [points.length, 1] });
    await click("cut-inner");
    await shows("a branch deleted", after(answer), Array.from(engine.view(answer.lent.folds)).slice(0, 3 * answer.sizes[1]));
    check("the caret after a delete", await where(), Array.from(answer.caret.slice(0, 2)));
    await ask(`document.getElementById("view").focus()`);
    await type("u");
    await shows("back by a key", shown, [11, 13, 1]);
    await type("gg0d2w");
    const { out: to } = call("word_u32", { op: 0, text: points, folds: [11, 13, 1], list: pointsOf("@,48-57,_"), row: 0, col: 0, held: 0, sticky: 0, big: 0, count: 2 });
    answer = call("delete", { text: points, folds: [11, 13, 1], row: 0, col: 0, end_row: to[0], end_col: to[1], caret: [0, 0, 0, 0, 0, 0], sizes: [points.length, 1] });
    await shows("d2w", after(answer), [11, 13, 1]);
    await type("u");
    await ask(`document.querySelectorAll("#folds button")[1].click()`);
    await shows("as at first", shown);
}

async function pastes(shown) {
    const own = "Vent du sud ↘ (5 m/s)\n\n\tcol: {fermé}\nあい [x]\n";
    await write("insert", own);
    await ask(`document.getElementById("insert").select()`);
    await press("c", { modifiers: 2, commands: ["copy"] });
    await ask(`document.getElementById("view").focus()`);
    const told = await telling("What was pasted", () => press("v", { modifiers: 2, commands: ["paste"] }));
    check("what was pasted", told, `What was pasted: ${pointsOf(own).length} code points.`);
    const seen = await drawn();
    check("rows that were pasted", seen.map((line) => line.text), rowsOf(own.replace("\t", "⇥")));
    await clickCell(2, 3);
    check("click on a tab", await where(), [2, call("columns_u32", { op: names.VISUAL_COL_TO_CHAR_COL, row: pointsOf("\tcol: {fermé}"), col: 3, tabstop: 8 }).out[0]]);
    await clickCell(3, 3);
    check("click on a character of two cells", await where(), [3, call("columns_u32", { op: names.VISUAL_COL_TO_CHAR_COL, row: pointsOf("あい [x]"), col: 3, tabstop: 8 }).out[0]]);
    await click("start");
    await shows("the first one again", shown);
    const path = join(room, "dropped.txt");
    writeFileSync(path, "déposé → ici\n");
    const { x, y } = await boxOf();
    const data = { items: [], files: [path], dragOperationsMask: 1 };
    const dropped = await telling("dropped.txt", async () => {
        for (const kind of ["dragEnter", "dragOver", "drop"]) await send("Input.dispatchDragEvent", { type: kind, x: x + 80, y: y + 60, data });
    });
    check("what was dropped", [dropped, (await drawn())[0].text], ["dropped.txt: 13 code points.", "déposé → ici"]);
    await click("start");
}

// Bad input: its number and place are told, and what is shown stays.
async function refusals(shown) {
    const told = await openFile("bad.txt", Buffer.concat([Buffer.from("vent → été "), Buffer.from([0xc3, 0x28]), Buffer.from(" fin")]));
    const { number, place } = call("utf8_decode", { bytes: Buffer.concat([Buffer.from("vent → été "), Buffer.from([0xc3, 0x28]), Buffer.from(" fin")]), points: new Uint32Array(99) });
    check("bytes that are no UTF-8", told.match(/\d+/g).slice(0, 2).map(Number), [number, 8]);
    check("their place", told.includes(`byte ${place} of 21`), true);
    await shows("after it", shown);
    const cut = await openFile("cut.txt", Buffer.concat([Buffer.from("abc"), Buffer.from([0xe2, 0x86])]));
    check("a cut sequence", cut.includes("byte 5 of 5, where it is cut off"), true);
    const ret = await openFile("return.txt", Buffer.from("un\r\ndeux\r\n"));
    check("a return", [ret.includes("Refused, 3"), ret.includes("code point 2")], [true, true]);
    const long = await openFile("long.txt", Buffer.alloc(1048577, "a"));
    check("too long", [long.includes("Refused, 1:"), long.includes("code point 1,048,576")], [true, true]);
    const longer = await openFile("longer.txt", Buffer.alloc(1048578, "a"));
    check("longer still", longer.includes("Refused, 14:"), true);
    const huge = await openFile("huge.txt", Buffer.alloc(5000000, "a"));
    check("not read at all", huge.includes("Refused, 1:") && huge.includes("5,000,000 bytes"), true);
    await shows("after all of these", shown);
    await write("tabstop", "1001");
    check("a tabstop", await text("settings-told"), "Refused, 6: a tabstop above 1,000.");
    await write("tabstop", "8");
    await write("list", "@,+48");
    check("a keyword list", await text("settings-told"), "Refused, 21: a retired plus sign in a keyword list; at place 2.");
    await write("list", "@,48-57,_");
    check("a good list", await text("settings-told"), "");
    await write("fold-from", "9");
    await write("fold-to", "4");
    await press("Enter");
    check("a wrong fold", (await text("folds-told")).startsWith("Refused, 5:"), true);
    await write("insert", "a\u2028b");
    await ask(`document.querySelector("#insert-form button").click()`);
    check("a wrong insert", (await text("insert-told")).startsWith("Refused, 3:"), true);
    await ask(`document.getElementById("view").focus()`);
    await type("gg02jx");
    check("a delete past the row's end", (await text("said")).startsWith("Refused, 11:"), true);
    await shows("after that", shown);
    await click("start");
}

// All that can be used has a name, and the keyboard alone reaches it.
async function access() {
    const { nodes } = await send("Accessibility.getFullAXTree");
    const used = nodes.filter((n) => ["button", "textbox", "combobox", "radio", "spinbutton", "application", "list"].includes(n.role?.value) && !n.ignored);
    check("things without a name", used.filter((n) => !n.name?.value && n.role.value !== "list").map((n) => n.role.value), []);
    await ask(`document.activeElement.blur(); window.scrollTo(0, 0)`);
    const reached = new Set();
    for (let i = 0; i < 90; i++) {
        await press("Tab");
        reached.add(await ask(`document.activeElement.id || document.activeElement.textContent || document.activeElement.value`));
    }
    const wanted = ["file", "start", "view", "insert", "mode", "width", "wide", "tabstop", "ways", "list", "fold-from", "fold-to", "calls"];
    check("reached by Tab", wanted.filter((id) => !reached.has(id)), []);
    await ask(`document.getElementById("view").focus()`);
    await type("gg0j");
    check("what is read out", (await text("live")).startsWith("row 1, column 0: Station"), true);
}

// A million code points, in many rows and in one: each step in less than ten seconds, on a busy machine too, and few elements.
async function million() {
    const row = "if (vent ≥ 25) { Décollage <nord> fermé → aval. }\n";
    const many = row.repeat(Math.floor(1048576 / pointsOf(row).length));
    const one = many.replaceAll("\n", " ");
    let slowest = 0;
    const timed = async (what) => {
        const from = performance.now();
        await what();
        slowest = Math.max(slowest, performance.now() - from);
    };
    for (const [name, content, mode] of [["rows.txt", many, 0], ["rows.txt", many, 2], ["row.txt", one, 0], ["row.txt", one, 1]]) {
        await choose("mode", mode);
        await write("width", "60");
        await timed(() => openFile(name, Buffer.from(content)));
        await ask(`document.getElementById("view").focus()`);
        const points = Uint32Array.from(pointsOf(content));
        for (const [keysOf, op] of [["G", "MOVE_BOTTOM"], ["$", "MOVE_LINE_END"], ["gg", "MOVE_TOP"]]) {
            const [r, c] = await where();
            await timed(() => type(keysOf));
            check(`${keysOf} in ${name}, mode ${mode}`, await where(), Array.from(call("motion_u32", { op: names[op], text: points, row: r, col: c, held: 0, sticky: 0, count: 0 }).out.slice(0, 2)));
        }
        await timed(() => type("500w"));
        check(`the caret is in sight in ${name}, mode ${mode}`, (await drawn()).filter((line) => line.caret !== null).length, 1);
        await timed(async () => {
            await ask(`(() => { const v = document.getElementById("view"); v.scrollTop = v.scrollHeight / 2; })()`);
            await drawnAgain();
        });
        const lines = await drawn();
        check(`lines in sight of ${name}, mode ${mode}`, lines.length > 0 && lines.every((line) => line.text !== "" && line.text.length < 600), true);
        check(`few elements for ${name}, mode ${mode}`, (await ask("document.querySelectorAll('*').length")) < 4000, true);
    }
    check("each step with a million code points in less than ten seconds", slowest < 10000, true);
    console.log(`a million code points: the slowest step took ${Math.round(slowest)} ms`);
    await choose("mode", 0);
    await click("start");
}

// ── Pictures ──

async function picture(name, full = false) {
    await ask("window.scrollTo(0, 0)");
    await pause(150);
    const { data } = await send("Page.captureScreenshot", { format: "png", captureBeyondViewport: full });
    writeFileSync(join(pictures, `${name}.png`), Buffer.from(data, "base64"));
}

async function phones() {
    await write("insert", "");
    await ask(`document.getElementById("view").focus()`);
    await type("gg06j12l");
    const dark = (value) => send("Emulation.setEmulatedMedia", { features: [{ name: "prefers-color-scheme", value }] });
    await dark("light");
    await picture("readme");
    await dark("dark");
    await picture("wide-dark");
    await send("Emulation.setDeviceMetricsOverride", { width: 390, height: 844, deviceScaleFactor: 2, mobile: true });
    await pause(300);
    await picture("phone-dark");
    await dark("light");
    await picture("phone-light");
    const { cssContentSize } = await send("Page.getLayoutMetrics");
    await send("Emulation.setDeviceMetricsOverride", { width: 390, height: Math.ceil(cssContentSize.height), deviceScaleFactor: 1, mobile: true });
    await pause(300);
    await picture("phone-whole");
    check("no wider than a phone", cssContentSize.width <= 390, true);
}

const ended = setTimeout(() => {
    console.log("page: the browser did not end in ten minutes");
    browser.kill("SIGKILL");
    process.exit(1);
}, 600000);
try {
    await run();
} catch (why) {
    failed += 1;
    console.log(`FAILED: ${why.stack}`);
}
clearTimeout(ended);
browser.kill("SIGKILL");
await new Promise((done) => browser.once("exit", done));
rmSync(room, { recursive: true, force: true, maxRetries: 5 });
console.log(`page: ${checks} things compared in the browser, ${failed} differ`);
process.exit(failed === 0 ? 0 : 1);
