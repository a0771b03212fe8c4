// A refusal of the program in words, and the place in the text that it is about.

const ITEMS = {drive: "drive", request: "request", fault: "fault", block: "block"};

/** The parts of what `refused ..` says of a document, or nothing of another answer. */
function readRefusal(answer) {
    const line = answer.replace(/\n$/, ""), found = /^refused (\d) (\w+)(?: ([^]*))?$/.exec(line);
    if (!found) return null;
    const [, number, kind, rest = ""] = found, value = kind === "range" ? rest.slice(rest.lastIndexOf(" ") + 1) : null;
    return {line, number: Number(number), kind, path: value === null ? rest : rest.slice(0, rest.lastIndexOf(" ")), value};
}

/** Where a refusal is: the node, or for a missing key the table that needs it. */
function nodeOf(reading, refusal) {
    if (refusal.kind === "toml") return null;
    // The path of a key without a name is that of the top table.
    if (refusal.path === "") return reading.top.entries.get("") ?? null;
    if (refusal.kind !== "missing") return reading.get(refusal.path) ?? null;
    const cut = refusal.path.lastIndexOf(".");
    return cut < 0 ? reading.top : reading.get(refusal.path.slice(0, cut)) ?? reading.top;
}

/** The span of a refusal in the text. */
function spanOf(reading, refusal) {
    if (refusal.kind === "toml") {
        const place = Math.min(reading.stumble?.place ?? 0, Math.max(reading.text.length - 1, 0));
        return {from: place, to: place + 1};
    }
    const node = nodeOf(reading, refusal);
    if (!node || node === reading.top) return {from: 0, to: Math.max(reading.text.indexOf("\n"), 0)};
    if (refusal.kind === "unknown" && node.key) return {from: node.key.from, to: node.key.to};
    return {from: node.from, to: node.to};
}

/** The name of a table in words, such as 'block 1 (S-0-0052) of drive 3'. Lists are counted from 1, a drive is named by its address. */
function tableWords(reading, path) {
    const parts = path.split(/\.(?=(?:ring|drive|request|fault|block)\b)/), words = [];
    let whole = "";
    for (const part of parts) {
        whole = whole ? `${whole}.${part}` : part;
        const [, name, place] = /^(\w+)(?:\[(\d+)\])?$/.exec(part) ?? [];
        if (!name) return path;
        if (place === undefined) {
            words.unshift(name === "ring" ? "the ring" : `the list ${name}`);
            continue;
        }
        const address = reading.value(`${whole}.address`, "integer"), idn = reading.value(`${whole}.idn`, "string");
        const count = Number(place) + 1, label = ITEMS[name] ?? name;
        words.unshift(name === "drive" && address !== null ? `drive ${address}${address === count ? "" : ` (number ${count} of the ring)`}`
            : `${label} ${count}${idn ? ` (${idn})` : ""}`);
    }
    return words.join(" of ");
}

function keyWords(reading, path) {
    const cut = path.lastIndexOf("."), name = path.slice(cut + 1), place = /^(\w+)\[(\d+)\]$/.exec(name);
    const table = cut < 0 ? "" : tableWords(reading, path.slice(0, cut));
    if (place && cut >= 0) return `Item ${Number(place[2]) + 1} of ${place[1]} of ${table}`;
    return cut < 0 ? tableWords(reading, path) : `${name} of ${table}`;
}

const PRINTED = {integer: "a number", float: "a number with a point", string: "a text", boolean: "true or false", date: "a date", list: "a list", table: "a table"};
const WANTED = {integer: "a whole number", string: "a text in quotes", boolean: "true or false", array: "a list", object: "a table"};

/** What a path is without its places, as docs/MESSAGES.md has it. */
function formOf(path) {
    return path.replace(/\[\d+\]/g, "[N]");
}

function schemaOf(words, path) {
    const keys = formOf(path).split(".").map((it) => it.replace("[N]", "")), key = keys.at(-1), table = keys.at(-2) ?? "top";
    return words.schema[table]?.[key] ?? null;
}

/** What isn't right, in words, and what is allowed instead. */
function refusalWords(reading, refusal, words) {
    const {path, kind, value} = refusal, node = reading.get(path), subject = keyWords(reading, path);
    if (kind === "toml") {
        const line = reading.stumble && reading.text.slice(0, reading.stumble.place).split("\n").length;
        return {what: "The text is not TOML.", allowed: line ? `In line ${line}: ${reading.stumble.message}. That is the page's reading, not the program's.` : ""};
    }
    if (kind === "missing") {
        if (!path.includes(".")) return {what: `There is no ${path === "ring" ? "[ring]" : `[[${path}]]`}.`, allowed: "A document has a table [ring] and a table [[drive]] for each drive."};
        const cut = path.lastIndexOf("."), known = schemaOf(words, path);
        return {what: `${path.slice(cut + 1)} of ${tableWords(reading, path.slice(0, cut))} is missing.`, allowed: known ? `${known.title}. ${known.description}` : ""};
    }
    if (kind === "twice") return {what: `${subject} occurs twice.`, allowed: node && "value" in node ? `${node.value} is there already.` : ""};
    if (kind === "unknown") return {what: `${subject} has no meaning here.`, allowed: unknownWords(words, path)};
    const allowed = words.allowed[formOf(path)] ?? "";
    if (kind === "kind") {
        const wanted = schemaOf(words, path)?.type, is = node ? PRINTED[node.type] : "of another type";
        const type = /\[\d+\]$/.test(path) && /\.(at|mdt)\[/.test(path) ? "string" : /order\[/.test(path) ? "integer" : wanted;
        return {what: `${subject} is ${is}.`, allowed: [type && `It has to be ${[type].flat().map((it) => WANTED[it]).join(" or ")}.`, allowed && `Allowed: ${allowed}`].filter(Boolean).join(" ")};
    }
    return {what: `${subject} is ${valueWords(node, value)}.`, allowed: allowed ? `Allowed: ${allowed}` : "", hint: hintOf(reading, path, node)};
}

function valueWords(node, value) {
    if (node?.type === "string") return node.value ? `"${node.value.length > 60 ? `${node.value.slice(0, 60)}..` : node.value}"` : "empty";
    if (node?.type === "list") return `a list of ${plural(Number(value), "item")}`;
    if (node?.type === "boolean") return String(node.value);
    return node?.type === "table" ? `too long: the MDT would have ${value} bytes` : value;
}

function unknownWords(words, path) {
    const keys = formOf(path).split(".").map((it) => it.replace("[N]", "")), table = keys.at(-2) ?? "top";
    const known = Object.keys(words.schema[table] ?? {});
    return known.length ? `Keys of this table: ${known.join(", ")}.` : "";
}

/** What was probably meant. */
function hintOf(reading, path, node) {
    if (node?.type !== "string") return "";
    const idn = /^([SP])-?(\d)-?(\d{1,4})$/i.exec(node.value);
    if (idn && !/^[SP]-[0-7]-\d{4}$/.test(node.value)) return `Write ${idn[1].toUpperCase()}-${idn[2]}-${idn[3].padStart(4, "0")}.`;
    const inList = /^(drive\[\d+\])\.(at|mdt)\[\d+\]$/.exec(path);
    if (inList) return `${node.value} has no block with a number in ${tableWords(reading, inList[1])}.`;
    return "";
}

if (typeof module !== "undefined") module.exports = {readRefusal, spanOf, nodeOf, refusalWords, formOf};
