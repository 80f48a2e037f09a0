// Keys to calls: the session's keys (docs: README, "Two commands"), `f` and `t`, the viewport, and the screen
// moves in both ways. A key is one call, or for `f` with a count as many.

// What becomes of the sticky column after a key, as in a session.
const CLEARED = "cleared";
const KEPT = "kept";
const ENDS = "ends";
const PAST_EVERY_END = 4294967295;

const motion = (op, after = CLEARED) => ({ call: "motion", op, after });
const word = (op, big) => ({ call: "word", op, big, after: CLEARED });
const rows = (op) => ({ call: "vertical", op, after: KEPT });
const screen = (op) => ({ call: "screen", op, after: KEPT });
const edge = (op) => ({ call: "viewport", op, after: CLEARED });
const find = (flags) => ({ call: "find", op: "FIND", flags, after: CLEARED });

export const KEYS = {
    h: motion("MOVE_LEFT"),
    l: motion("MOVE_RIGHT_IN_LINE"),
    w: word("MOVE_WORD_FWD", 0),
    b: word("MOVE_WORD_BACK", 0),
    e: word("MOVE_WORD_END", 0),
    W: word("MOVE_WORD_FWD", 1),
    B: word("MOVE_WORD_BACK", 1),
    E: word("MOVE_WORD_END", 1),
    ge: word("MOVE_WORD_END_BACK", 0),
    gE: word("MOVE_WORD_END_BACK", 1),
    0: motion("MOVE_LINE_START"),
    "^": motion("MOVE_FIRST_NON_BLANK"),
    $: motion("MOVE_LINE_END", ENDS),
    g_: motion("MOVE_LAST_NON_BLANK"),
    "{": motion("MOVE_PARAGRAPH_PREV"),
    "}": motion("MOVE_PARAGRAPH_NEXT"),
    "[[": motion("MOVE_SECTION_BACKWARD"),
    "]]": motion("MOVE_SECTION_FORWARD"),
    "[]": motion("MOVE_SECTION_END_BACKWARD"),
    "][": motion("MOVE_SECTION_END_FORWARD"),
    "+": motion("MOVE_FIRST_NON_BLANK_NEXT_LINE"),
    "-": motion("MOVE_FIRST_NON_BLANK_PREV_LINE"),
    _: motion("MOVE_FIRST_NON_BLANK_LINE"),
    gg: motion("MOVE_TOP"),
    G: motion("MOVE_BOTTOM"),
    "|": motion("MOVE_GOTO_COLUMN"),
    "%": { call: "bracket", op: "MATCH_BRACKET", after: CLEARED },
    j: rows("MOVE_DOWN"),
    k: rows("MOVE_UP"),
    gj: screen("MOVE_SCREEN_DOWN"),
    gk: screen("MOVE_SCREEN_UP"),
    H: edge("MOVE_VIEWPORT_TOP"),
    M: edge("MOVE_VIEWPORT_MIDDLE"),
    L: edge("MOVE_VIEWPORT_BOTTOM"),
    f: find(["FIND_FORWARD"]),
    F: find([]),
    t: find(["FIND_FORWARD", "FIND_TILL"]),
    T: find(["FIND_TILL"]),
    " ": motion("MOVE_SPACE_FWD"),
    Backspace: motion("MOVE_BACKSPACE_BACK"),
};

// Keys with a name that stand for one of these.
export const SAME = { ArrowLeft: "h", ArrowRight: "l", ArrowUp: "k", ArrowDown: "j", Home: "0", End: "$" };

// What was pressed so far: a count, and the beginning of a key.
export class Presses {
    constructor(others) {
        this.all = [...Object.keys(KEYS), ...others];
        this.clear();
    }

    clear() {
        this.count = "";
        this.begun = "";
        this.deletes = false;
    }

    toString() {
        return `${this.deletes ? "d" : ""}${this.count}${this.begun}`;
    }

    // Takes a press; answers the whole key with its count once it is one, `unknown` where there is none.
    press(key) {
        if (KEYS[this.begun]?.call === "find") return this.done({ key: this.begun, sought: key });
        if (!this.begun && /^[0-9]$/.test(key) && (key !== "0" || this.count) && this.count.length < 9) {
            this.count += key;
            return null;
        }
        if (!this.begun && !this.deletes && key === "d") {
            this.deletes = true;
            return null;
        }
        this.begun += key;
        if (KEYS[this.begun]?.call === "find") return null;
        if (this.all.includes(this.begun)) return this.done({ key: this.begun });
        if (this.all.some((one) => one.startsWith(this.begun))) return null;
        return this.done({ key: this.begun, unknown: true });
    }

    done(what) {
        const pressed = { ...what, count: Number(this.count || 0), deletes: this.deletes };
        this.clear();
        return pressed;
    }
}

// Makes the call of a key from the sheet's caret: `{ answer, caret, found }`, the caret as it is after the key.
export function move(sheet, { key, count, sought }, view) {
    const { call, op, big, flags, after } = KEYS[key];
    const numbers = sheet.names;
    const text = sheet.lentText();
    const folds = sheet.lentFolds();
    const at = sheet.place();
    const screenful = { mode: sheet.mode, width: sheet.width, count, tabstop: sheet.tabstop };
    const how = { op };
    if (call === "find" || call === "bracket") return seek(sheet, { op, flags, count, sought });
    let answer;
    let offset = [0, 0];
    if (call === "motion") answer = sheet.ask("tsivareza_motion_u32", { op: numbers[op], text, ...at, count }, how);
    if (call === "word") answer = sheet.ask("tsivareza_word_u32", { op: numbers[op], text, folds, list: sheet.lentList(), ...at, big, count }, how);
    if (call === "viewport") answer = sheet.ask("tsivareza_viewport_u32", { op: numbers[op], text, ...at, top: view.top, height: view.height, offset: count }, how);
    if (call === "vertical" || (call === "screen" && !view.remembers)) {
        answer = sheet.ask("tsivareza_vertical_u32", { op: numbers[op] + sheet.wide, text, folds, ...at, ...screenful }, how);
    } else if (call === "screen") {
        const [, , , , kept, held] = sheet.caret;
        const name = `${op}_KEPT`;
        answer = sheet.ask("tsivareza_screen_kept_u32", { op: numbers[name] + sheet.wide, text, folds, ...at, kept, offset: held, ...screenful }, { op: name });
        offset = Array.from(answer.out.slice(4));
    }
    if (answer.number) return { answer };
    const [row, col, held, sticky] = answer.out;
    const column = { [CLEARED]: [0, 0], [KEPT]: [held, sticky], [ENDS]: [1, PAST_EVERY_END] }[after];
    return { answer, caret: [row, col, ...column, ...offset], found: true };
}

// `%`, or `f` and `t` so often as the count says: the caret stays where one of them finds nothing.
function seek(sheet, { op, flags, count, sought }) {
    const text = sheet.lentText();
    const [row, col] = sheet.caret;
    let at = sheet.place();
    let answer;
    for (let i = 0; i < Math.max(1, flags ? Math.min(count, 10000) : 1); i++) {
        const words = flags ? [...flags, ...(i > 0 && flags.includes("FIND_TILL") ? ["FIND_SKIP_ADJACENT"] : [])] : [];
        const base = flags ? sheet.names.FIND : sheet.names.MATCH_BRACKET;
        const number = words.reduce((sum, word) => sum + sheet.names[word], base);
        answer = sheet.ask("tsivareza_seek_u32", { op: number, text, ...at, x: sought?.codePointAt(0) ?? 0 }, { op: [op, ...words].join(" + ") });
        if (answer.number) return { answer };
        if (answer.out[0] === 0) return { answer, caret: [row, col, 0, 0, 0, 0], found: false };
        at = { row: answer.out[1], col: answer.out[2], held: 0, sticky: 0 };
    }
    return { answer, caret: [at.row, at.col, 0, 0, 0, 0], found: true };
}
