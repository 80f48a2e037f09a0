// How calls, answers and refusals are said. Nothing here looks at a text.

// What each refusal number means, as host/c/tsivareza.h has it.
export const REFUSALS = {
    1: "over 1,048,576 code points",
    2: "a value that is no scalar value",
    3: "a text holds U+000B, U+000C, U+000D, U+0085, U+2028 or U+2029",
    4: "a position outside the text",
    5: "wrong folds: a first row after the last, a row outside the text, or over 256 folds",
    6: "a tabstop above 1,000",
    7: "a keyword list over 1,024 code points",
    8: "over 128 tokens kept of a keyword list",
    9: "too little room for the segments",
    10: "segments of odd length",
    11: "a position outside the text, or the second before the first",
    12: "the text would be over 1,048,576 code points",
    13: "bytes that are no UTF-8",
    14: "too little room to write into",
    15: "too few places for the row starts",
    16: "row starts that are not the text's",
    21: "a retired plus sign in a keyword list",
    100: "no such operation, mode or kind",
    103: "an answer that no 32 bits hold",
};

export const grouped = (n) => String(n).replace(/\B(?=(\d{3})+$)/g, ",");

// A refusal in words, with its number first.
export function refusal(number, where = "") {
    return `Refused, ${number}: ${REFUSALS[number] ?? "not known"}${where ? `; ${where}` : ""}.`;
}

// A call as a script would write it, with each number by its name, and what it answered.
export function shown(answer, parameters, op = "") {
    const [{ name: named }] = parameters;
    const given = parameters.map(({ name, kind }) => {
        if (kind === "number") return `${name} ${answer.given[name]}${op && name === named ? ` ${op}` : ""}`;
        if (kind === "slice") return `${name} of ${answer.lent[name].length}`;
        return answer.given[name] ? `${name} ${Array.from(answer.given[name]).join(" ")}` : "";
    });
    const left = parameters.filter(({ kind }) => kind === "fixed").map(({ name }) => `; ${name} ${Array.from(answer[name]).join(" ")}`);
    const placed = answer.place ? ` at ${answer.place}` : "";
    return `${answer.name}(${given.filter(Boolean).join(", ")}) = ${answer.number}${placed}${answer.number === 0 ? left.join("") : ""}`;
}

// A code point by its number and, where it can be seen, itself.
export function pointName(x) {
    const seen = x > 32 && x !== 127 ? ` ${String.fromCodePoint(x)}` : { 9: " tab", 32: " space" }[x] ?? "";
    return `U+${x.toString(16).toUpperCase().padStart(4, "0")}${seen}`;
}
