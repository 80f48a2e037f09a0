// The template, lent to the engine: its code points, row starts, folds and caret, and every question about
// them as a call. A refused call changes nothing here.
import { shown } from "./words.mjs";

export const LIMIT = 1048576;
const MOST_FOLDS = 256;

export class Sheet {
    // `names` has the numbers of operations by name; `tell` is called with each call that is worth showing.
    constructor(engine, names, tell) {
        this.engine = engine;
        this.names = names;
        this.tell = tell;
        this.text = engine.lend(LIMIT);
        this.starts = engine.lend(LIMIT + 1);
        this.folds = engine.lend(3 * MOST_FOLDS);
        this.spare = engine.lend(LIMIT + 1);
        this.list = engine.lend(1024);
        this.listLength = 0;
        this.length = 0;
        this.rows = 1;
        this.content = 1;
        this.foldCount = 0;
        this.caret = [0, 0, 0, 0, 0, 0];
        this.tabstop = 8;
        this.mode = 0;
        this.width = 60;
        this.wide = 0;
        this.before = null;
        this.changed();
    }

    // A call, shown or not. `op` is the name of its operation.
    ask(name, given, { op = "", silent = false } = {}) {
        const answer = this.engine.call(name, given);
        if (!silent) this.tell((answer.shown = shown(answer, this.engine.functions.get(name), op)), answer.number);
        return answer;
    }

    // What was found out about the text is no longer so.
    changed() {
        this.near = new Map();
        this.cut = new Map();
        this.cells = new Map();
    }

    lentText() {
        return this.engine.part(this.text, 0, this.length);
    }

    lentFolds() {
        return this.engine.part(this.folds, 0, 3 * this.foldCount);
    }

    lentList() {
        return this.engine.part(this.list, 0, this.listLength);
    }

    // ── Rows ──

    // Where a row starts and ends, by the row starts.
    bounds(row) {
        const starts = this.engine.view(this.starts);
        return [starts[row], row + 1 < this.rows ? starts[row + 1] - 1 : this.length];
    }

    lentRow(row) {
        return this.engine.part(this.text, ...this.bounds(row));
    }

    points(from, to) {
        return this.engine.view(this.text).slice(from, to);
    }

    // The row of an offset, by the row starts.
    rowAt(offset) {
        const starts = this.engine.view(this.starts);
        let [low, high] = [0, this.rows - 1];
        while (low < high) {
            const middle = (low + high + 1) >> 1;
            if (starts[middle] <= offset) low = middle;
            else high = middle - 1;
        }
        return low;
    }

    // How many rows: places behind the rows are 0, and only the last row may have no content.
    counted(content) {
        this.content = content;
        this.rows = content + (this.engine.view(this.starts)[content] ? 1 : 0);
        this.changed();
    }

    // Fills the row starts of the text.
    fill() {
        this.engine.view(this.starts).fill(0);
        this.filled = this.ask("tsivareza_row_starts_u32", { text: this.lentText(), starts: this.starts });
        this.counted(this.filled.out[0]);
    }

    // ── A new text ──

    // UTF-8 into the spare places: how many code points, or the refusal with its place.
    decode(bytes) {
        const answer = this.ask("tsivareza_utf8_decode", { bytes, points: this.spare });
        return answer.number ? { refused: answer } : { length: answer.out[0] };
    }

    // Takes a text of UTF-8, or leaves everything as it is and says why.
    open(bytes) {
        const { length, refused } = this.decode(bytes);
        if (refused) return refused;
        const points = this.engine.part(this.spare, 0, length);
        const tried = this.ask("tsivareza_content_row_count_u32", { text: points });
        if (tried.number) return { ...tried, place: this.placeOf(tried.number, length), points: true };
        this.keep();
        this.engine.view(this.text).set(this.engine.view(points));
        this.length = length;
        this.foldCount = 0;
        this.caret = [0, 0, 0, 0, 0, 0];
        this.fill();
        return tried;
    }

    // The first of the spare code points that is refused with this number: the longest beginning that isn't.
    placeOf(number, length) {
        let [good, bad] = [0, length];
        while (bad - good > 1) {
            const middle = (good + bad) >> 1;
            const text = this.engine.part(this.spare, 0, middle);
            if (this.ask("tsivareza_content_row_count_u32", { text }, { silent: true }).number === number) bad = middle;
            else good = middle;
        }
        return good;
    }

    // ── One step back ──

    keep() {
        const folds = this.engine.view(this.lentFolds()).slice();
        this.before = { text: this.points(0, this.length), folds, caret: this.caret };
    }

    back() {
        if (!this.before) return false;
        const { text, folds, caret } = this.before;
        this.before = null;
        this.engine.view(this.text).set(text);
        this.length = text.length;
        this.engine.view(this.folds).set(folds);
        this.foldCount = folds.length / 3;
        this.caret = caret;
        this.fill();
        return true;
    }

    // ── Edits ──

    edited(name, given) {
        const buffers = { text: this.text, folds: this.folds, starts: this.starts };
        const held = this.before;
        this.keep();
        const answer = this.ask(name, { ...buffers, ...given, caret: this.caret, sizes: [this.length, this.foldCount, this.content] });
        if (answer.number) {
            this.before = held;
            return answer;
        }
        [this.length, this.foldCount] = answer.sizes;
        this.caret = Array.from(answer.caret);
        this.counted(answer.sizes[2]);
        return answer;
    }

    // Puts UTF-8 in at the caret.
    insert(bytes) {
        const { length, refused } = this.decode(bytes);
        if (refused) return refused;
        const [row, col] = this.caret;
        return this.edited("tsivareza_insert_rows_u32", { points: this.engine.part(this.spare, 0, length), row, col });
    }

    // Takes away what stands from a position up to another.
    remove([row, col], [end_row, end_col]) {
        return this.edited("tsivareza_delete_rows", { row, col, end_row, end_col });
    }

    // ── Folds ──

    fold(at) {
        return Array.from(this.engine.view(this.lentFolds()).subarray(3 * at, 3 * at + 3));
    }

    // Takes a list of folds, or leaves those that there are and hands the refusal back.
    setFolds(folds) {
        const file = new Uint8Array(2560);
        const tried = this.ask("tsivareza_folds_write_u32", { text: this.lentText(), folds, file });
        if (tried.number) return tried;
        this.engine.view(this.folds).set(folds);
        this.foldCount = folds.length / 3;
        this.changed();
        const [row] = this.caret;
        if (!this.visible(row)) this.caret = [this.beside(row, false) ?? 0, 0, 0, 0, 0, 0];
        return tried;
    }

    anyClosed() {
        return this.engine.view(this.lentFolds()).some((x, i) => i % 3 === 2 && x === 1);
    }

    // The next visible row down or up, or nothing at the edge: what `j` or `k` answer.
    beside(row, down) {
        if (!this.anyClosed()) return down ? (row + 1 < this.rows ? row + 1 : null) : row > 0 ? row - 1 : null;
        const key = 2 * row + (down ? 1 : 0);
        if (!this.near.has(key)) {
            const op = this.names[down ? "MOVE_DOWN" : "MOVE_UP"];
            const given = { op, text: this.lentText(), folds: this.lentFolds(), row, col: 0, held: 0, sticky: 0 };
            const { out } = this.ask("tsivareza_vertical_u32", { ...given, mode: 0, width: 0, count: 1, tabstop: 8 }, { silent: true });
            this.near.set(key, out[0] === row ? null : out[0]);
        }
        return this.near.get(key);
    }

    visible(row) {
        return row === 0 || !this.anyClosed() || this.beside(row - 1, true) === row;
    }

    // ── Cells ──

    // The segments of a row as start, end, start, end ..; one where rows are not wrapped.
    segments(row) {
        if (!this.cut.has(row)) {
            const text = this.lentRow(row);
            if (this.mode === 0 || this.width === 0) return Uint32Array.of(0, text.length);
            const { lent, out } = this.wrapped(text, { silent: true });
            this.cut.set(row, this.engine.view(lent.segments, 2 * out[0]).slice());
        }
        return this.cut.get(row);
    }

    wrapped(row, how) {
        const mode = this.mode + this.wide;
        const segments = new Uint32Array(2 * Math.max(1, row.length));
        return this.ask("tsivareza_wrap_segments_u32", { mode, row, width: this.width, segments }, { op: ["NONE", "CHAR", "WORD"][this.mode], ...how });
    }

    segmentOf(row, col, how = { silent: true }) {
        return this.ask("tsivareza_segment_for_col_u32", { segments: this.segments(row), col }, how);
    }

    columns(op, row, col, how = { silent: true }) {
        const given = { op: this.names[op] + this.wide, row: this.lentRow(row), col, tabstop: this.tabstop };
        return this.ask("tsivareza_columns_u32", given, { op, ...how });
    }

    offsets(op, row, start, end, at, how = { silent: true }) {
        return this.ask("tsivareza_offsets_u32", { op: this.names[op] + this.wide, row, start, end, at }, { op, ...how }).out[0];
    }

    // The cells of a character that is no tab: its width, or what it takes of a segment.
    cellsOf(x, wrapped) {
        const key = 2 * x + (wrapped ? 1 : 0);
        if (!this.cells.has(key)) {
            const cells = wrapped
                ? this.offsets("VISUAL_OFFSET_FOR_CHAR_COL", Uint32Array.of(x), 0, 0, 1)
                : this.ask("tsivareza_character", { op: this.names.WIDTH + this.wide, x }, { silent: true }).out[0];
            this.cells.set(key, cells);
        }
        return this.cells.get(key);
    }

    // ── Questions about the caret ──

    place() {
        const [row, col, held, sticky] = this.caret;
        return { row, col, held, sticky };
    }

    // The innermost pair of a kind around the caret.
    pair(kind, op) {
        const [row, col] = this.caret;
        return this.ask("tsivareza_inner_pair_u32", { kind, text: this.lentText(), row, col }, { op });
    }

    // The code point at the caret, or nothing at a row's end.
    under() {
        const [row, col] = this.caret;
        const [start, end] = this.bounds(row);
        return start + col < end ? this.points(start + col, start + col + 1)[0] : null;
    }

    // ── Settings ──

    // Tries a tabstop on the caret's row.
    setTabstop(tabstop) {
        const op = this.names.LEADING_VISUAL_WIDTH;
        const tried = this.ask("tsivareza_columns_u32", { op, row: this.lentRow(this.caret[0]), col: 0, tabstop }, { op: "LEADING_VISUAL_WIDTH" });
        if (!tried.number) this.tabstop = tabstop;
        this.changed();
        return tried;
    }

    // Enters a keyword list of UTF-8.
    setList(bytes) {
        const { length, refused } = this.decode(bytes);
        if (refused) return refused;
        const list = this.engine.part(this.spare, 0, length);
        const tried = this.ask("tsivareza_enter_u32", { op: this.names.ENTER, list, x: 0 }, { op: "ENTER" });
        if (tried.number) return tried;
        this.engine.view(this.list).set(this.engine.view(list));
        this.listLength = length;
        return tried;
    }
}
