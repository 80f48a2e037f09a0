// The view: rulers, and the rows that are in sight, as screen lines. A screen line is a row's segment; which
// character stands in which cell, which row comes next and where a segment ends are the engine's answers.

// Scrolled heights and widths that browsers still take.
const TALLEST = 6000000;
const GUTTER = 7;

export class View {
    constructor(sheet, box, onPoint) {
        this.sheet = sheet;
        this.box = box;
        this.space = box.querySelector(".space");
        this.paper = box.querySelector(".paper");
        this.top = { row: 0, part: 0 };
        this.seen = 0;
        this.widest = 1;
        this.pair = null;
        box.addEventListener("scroll", () => this.scrolled());
        box.addEventListener("click", (event) => this.clicked(event, onPoint));
        new ResizeObserver(() => this.draw()).observe(box);
    }

    // ── Sizes ──

    measure() {
        const probe = document.createElement("span");
        probe.textContent = "0".repeat(100);
        probe.className = "probe";
        this.paper.append(probe);
        this.cell = probe.getBoundingClientRect().width / 100;
        this.line = Math.ceil(probe.getBoundingClientRect().height * 1.25);
        probe.remove();
        this.height = Math.max(1, Math.floor(this.box.clientHeight / this.line) - 1);
        this.columns = Math.max(1, Math.floor(this.box.clientWidth / this.cell) - GUTTER);
        this.left = Math.round(this.box.scrollLeft / this.cell);
    }

    wraps() {
        return this.sheet.mode !== 0 && this.sheet.width !== 0;
    }

    // About how many lines there are, for the length of the scroll bar alone.
    guess() {
        const { rows, length, width } = this.sheet;
        return this.wraps() ? rows + Math.floor(length / width) : rows;
    }

    stretch() {
        const lines = Math.min(TALLEST, (this.guess() + 1) * this.line);
        const cells = this.wraps() ? this.sheet.width : this.widest;
        this.space.style.height = `${lines}px`;
        this.space.style.width = `${Math.min(TALLEST * 2, (cells + GUTTER + 2) * this.cell)}px`;
        this.paper.style.width = `${this.box.clientWidth}px`;
        this.paper.style.height = `${this.box.clientHeight}px`;
    }

    // ── Lines ──

    parts(row) {
        return this.sheet.segments(row).length / 2;
    }

    // The line below or above one, or nothing at the edge.
    next({ row, part }) {
        if (part + 1 < this.parts(row)) return { row, part: part + 1 };
        const below = this.sheet.beside(row, true);
        return below === null ? null : { row: below, part: 0 };
    }

    previous({ row, part }) {
        if (part > 0) return { row, part: part - 1 };
        const above = this.sheet.beside(row, false);
        return above === null ? null : { row: above, part: this.parts(above) - 1 };
    }

    walk(line, by) {
        let at = line;
        for (let i = 0; i < Math.abs(by); i++) {
            const then = by > 0 ? this.next(at) : this.previous(at);
            if (!then) break;
            at = then;
        }
        return at;
    }

    // The line that the caret stands in.
    caretLine() {
        const [row, col] = this.sheet.caret;
        return { row, part: this.wraps() ? this.sheet.segmentOf(row, col).out[0] : 0 };
    }

    // A line that can be at the top: the last screenful is the last.
    held(line) {
        let at = { row: Math.min(line.row, this.sheet.rows - 1), part: line.part };
        if (!this.sheet.visible(at.row)) at = { row: this.sheet.beside(at.row, false) ?? 0, part: 0 };
        at.part = Math.min(at.part, this.parts(at.row) - 1);
        let end = at;
        let below = 0;
        while (below < this.height - 1) {
            const then = this.next(end);
            if (!then) break;
            end = then;
            below += 1;
        }
        return this.walk(at, below - (this.height - 1));
    }

    // ── Scrolling ──

    // A little goes line by line; a leap, as with the bar, by the share of the rows or of the text.
    scrolled() {
        const { scrollTop, scrollHeight, clientHeight } = this.box;
        const by = Math.round((scrollTop - this.seen) / this.line);
        const most = scrollHeight - clientHeight;
        if (scrollTop <= 0) this.top = { row: 0, part: 0 };
        else if (Math.abs(by) > 3 * this.height || scrollTop >= most - 1) this.top = this.leapt(scrollTop / most);
        else if (by !== 0) this.top = this.walk(this.top, by);
        else if (Math.round(this.box.scrollLeft / this.cell) === this.left) return;
        if (by !== 0 || scrollTop <= 0) this.seen = scrollTop;
        this.draw();
    }

    leapt(share) {
        const { rows, length } = this.sheet;
        if (share >= 0.9999) return this.held({ row: rows - 1, part: Infinity });
        if (!this.wraps()) return { row: Math.floor(share * rows), part: 0 };
        const offset = Math.floor(share * length);
        const row = this.sheet.rowAt(offset);
        return { row, part: this.sheet.segmentOf(row, offset - this.sheet.bounds(row)[0]).out[0] };
    }

    // Brings the caret into sight.
    follow() {
        this.measure();
        const caret = this.caretLine();
        let at = this.top;
        let inside = false;
        for (let i = 0; i < this.height && at; i++) {
            inside ||= at.row === caret.row && at.part === caret.part;
            at = this.next(at);
        }
        if (!inside) {
            const before = caret.row < this.top.row || (caret.row === this.top.row && caret.part < this.top.part);
            const near = this.walk(this.top, before ? -this.height : this.height);
            const close = before ? caret.row >= near.row : caret.row <= near.row + this.height;
            this.top = this.walk(caret, before && close ? 0 : close ? 1 - this.height : -(this.height >> 1));
            this.stretch();
            const share = this.wraps() ? (this.sheet.bounds(this.top.row)[0] + this.sheet.segments(this.top.row)[2 * this.top.part]) / Math.max(1, this.sheet.length)
                : this.top.row / this.sheet.rows;
            this.box.scrollTop = this.guess() * this.line < TALLEST && !this.wraps() && !this.sheet.anyClosed()
                ? this.top.row * this.line : share * (this.box.scrollHeight - this.box.clientHeight);
            this.seen = this.box.scrollTop;
        }
        const [cell, cells] = this.caretCells(caret);
        this.widest = Math.max(this.widest, cell + cells);
        this.stretch();
        const room = this.columns - 2;
        if (cell < this.left) this.box.scrollLeft = Math.max(0, cell - 4) * this.cell;
        else if (cell + cells > this.left + room) this.box.scrollLeft = (cell + cells - room + 4) * this.cell;
        this.draw();
    }

    // The caret's cell in its line, and how many cells it covers.
    caretCells({ row, part }) {
        const [, col] = this.sheet.caret;
        const [start, end] = this.sheet.segments(row).slice(2 * part, 2 * part + 2);
        const [from] = this.sheet.bounds(row);
        const x = this.sheet.under();
        if (this.wraps()) {
            const segment = this.sheet.engine.part(this.sheet.text, from + start, from + end);
            const cell = this.sheet.offsets("VISUAL_OFFSET_FOR_CHAR_COL", segment, 0, 0, col - start);
            return [cell, x === null ? 1 : this.sheet.cellsOf(x, true)];
        }
        const cell = this.sheet.columns("CHAR_COL_TO_VISUAL_COL", row, col).out[0];
        const past = x === 9 ? this.sheet.columns("CHAR_COL_TO_VISUAL_COL", row, col + 1).out[0] - cell : x === null ? 1 : this.sheet.cellsOf(x, false);
        return [cell, Math.max(1, past)];
    }

    // ── Drawing ──

    draw() {
        this.measure();
        this.top = this.held(this.top);
        const drawn = document.createDocumentFragment();
        this.lines = [];
        let at = this.top;
        for (let i = 0; i < this.height && at; i++) {
            drawn.append(this.drawLine(at, i));
            this.lines.push(at);
            at = this.next(at);
        }
        drawn.prepend(this.ruler());
        this.stretch();
        this.paper.replaceChildren(drawn);
    }

    // Cells from the left edge, every tenth by its number; the caret's is marked.
    ruler() {
        const ruler = document.createElement("div");
        ruler.className = "ruler";
        ruler.style.height = `${this.line}px`;
        const first = Math.ceil(this.left / 10) * 10;
        for (let cell = first; cell < this.left + this.columns; cell += 10) ruler.append(this.put("tick", cell, 1, String(cell)));
        const [cell, cells] = this.caretCells(this.caretLine());
        ruler.append(this.put("here", cell, cells, ""));
        return ruler;
    }

    // Something at a cell of a line, so many cells wide.
    put(kind, cell, cells, text) {
        const one = document.createElement("span");
        one.className = kind;
        one.style.left = `${(GUTTER + cell - this.left) * this.cell}px`;
        if (cells !== null) one.style.width = `${cells * this.cell}px`;
        one.textContent = text;
        return one;
    }

    drawLine(line, index) {
        const { row, part } = line;
        const one = document.createElement("div");
        one.className = "line";
        one.style.top = `${(index + 1) * this.line}px`;
        one.style.height = one.style.lineHeight = `${this.line}px`;
        const { columns, edges, points } = this.laid(line);
        this.shade(one, line, columns, edges);
        this.runs(one, columns, edges, points);
        const [caretRow] = this.sheet.caret;
        if (caretRow === row && this.caretLine().part === part) {
            const [cell, cells] = this.caretCells(line);
            one.append(this.put("caret", cell, cells, ""));
        }
        const gutter = document.createElement("span");
        gutter.className = "gutter";
        gutter.style.width = `${(GUTTER - 0.5) * this.cell}px`;
        const fold = this.foldOf(row);
        gutter.textContent = part > 0 ? "↪ " : `${fold === null ? "" : this.sheet.fold(fold)[2] ? "▸" : "▾"}${row} `;
        if (fold !== null && part === 0) gutter.classList.add("fold");
        if (fold !== null && this.sheet.fold(fold)[2]) one.classList.add("closed");
        if (row === caretRow) gutter.classList.add("here");
        one.append(gutter);
        one.dataset.row = row;
        return one;
    }

    // The fold that starts in a row, or nothing.
    foldOf(row) {
        for (let i = 0; i < this.sheet.foldCount; i++) if (this.sheet.fold(i)[0] === row) return i;
        return null;
    }

    // The characters of a line that are in sight: columns from `columns[0]`, the cell that each starts in, and
    // last the cell behind them.
    laid({ row, part }) {
        const { sheet } = this;
        const [from] = sheet.bounds(row);
        const [start, end] = sheet.segments(row).slice(2 * part, 2 * part + 2);
        const wraps = this.wraps();
        let [col, cell] = [start, 0];
        if (wraps && this.left > 0) {
            const segment = sheet.engine.part(sheet.text, from + start, from + end);
            const skipped = sheet.offsets("CHAR_COL_FOR_VISUAL_OFFSET", segment, 0, end - start, this.left);
            col = start + skipped;
            cell = sheet.offsets("VISUAL_OFFSET_FOR_CHAR_COL", segment, 0, 0, skipped);
        } else if (!wraps) {
            this.widest = Math.max(this.widest, sheet.columns("CHAR_COL_TO_VISUAL_COL", row, end).out[0]);
            if (this.left > 0) {
                col = Math.min(end, sheet.columns("VISUAL_COL_TO_CHAR_COL", row, this.left).out[0]);
                cell = sheet.columns("CHAR_COL_TO_VISUAL_COL", row, col).out[0];
            }
        }
        const points = sheet.points(from + col, from + Math.min(end, col + 2 * this.columns + 200));
        const edges = [cell];
        const columns = [];
        for (let i = 0; i < points.length && edges[i] < this.left + this.columns; i++) {
            const tab = points[i] === 9 && !wraps;
            columns.push(col + i);
            edges.push(tab ? sheet.columns("CHAR_COL_TO_VISUAL_COL", row, col + i + 1).out[0] : edges[i] + sheet.cellsOf(points[i], wraps));
        }
        columns.push(col + columns.length);
        return { columns, edges, points };
    }

    // Plain characters go in runs; any other has its own cells, with what has no width behind it.
    runs(one, columns, edges, points) {
        const n = columns.length - 1;
        for (let i = 0; i < n; ) {
            let end = i + 1;
            const plain = (x) => x >= 32 && x < 127;
            if (plain(points[i])) while (end < n && plain(points[end])) end += 1;
            else while (end < n && edges[end + 1] === edges[end]) end += 1;
            const text = Array.from(points.slice(i, end), (x) => this.seenAs(x)).join("");
            const kind = plain(points[i]) ? "run" : points[i] < 32 || points[i] === 127 ? "run sign" : "run one";
            one.append(this.put(kind, edges[i], edges[end] - edges[i], text));
            i = end;
        }
    }

    seenAs(x) {
        if (x === 9) return "⇥";
        if (x < 32) return String.fromCodePoint(0x2400 + x);
        return x === 127 ? "␡" : String.fromCodePoint(x);
    }

    // The branch in this line, and its brackets: from the pair's answer.
    shade(one, { row }, columns, edges) {
        if (!this.pair) return;
        const [, fromRow, fromCol, toRow, toCol, openRow, openCol] = this.pair;
        const n = columns.length - 1;
        const cellOf = (col) => edges[Math.max(0, Math.min(n, col - columns[0]))];
        if (row >= fromRow && row <= toRow) {
            const from = row === fromRow ? cellOf(fromCol) : edges[0];
            const to = row === toRow ? cellOf(toCol) : edges[n] + (row < toRow ? 0.5 : 0);
            if (to > from) one.append(this.put("branch", from, to - from, ""));
        }
        for (const [bracketRow, col] of [[openRow, openCol], [toRow, toCol]]) {
            if (row === bracketRow && col >= columns[0] && col < columns[0] + n) {
                one.append(this.put("bracket", cellOf(col), cellOf(col + 1) - cellOf(col), ""));
            }
        }
    }

    // ── Clicks ──

    clicked(event, onPoint) {
        const box = this.paper.getBoundingClientRect();
        const line = this.lines[Math.floor((event.clientY - box.top) / this.line) - 1];
        const across = (event.clientX - box.left) / this.cell - GUTTER;
        if (!line) return;
        if (across < -0.5) return onPoint({ row: line.row, fold: line.part === 0 ? this.foldOf(line.row) : null, col: 0 });
        const cell = Math.max(0, Math.floor(across) + this.left);
        const { sheet } = this;
        let col;
        if (this.wraps()) {
            const [from] = sheet.bounds(line.row);
            const [start, end] = sheet.segments(line.row).slice(2 * line.part, 2 * line.part + 2);
            const segment = sheet.engine.part(sheet.text, from + start, from + end);
            col = start + sheet.offsets("CHAR_COL_FOR_VISUAL_OFFSET", segment, 0, end - start, cell);
        } else {
            col = sheet.columns("VISUAL_COL_TO_CHAR_COL", line.row, cell).out[0];
        }
        onPoint({ row: line.row, col, fold: null });
    }
}
