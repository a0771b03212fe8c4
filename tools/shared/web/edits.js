// Edits of a ring document as replaced spans of its text, and the one history of them.

/** The text of a document with what was done to it. A change is the span that was replaced, so that each step is undone byte for byte. */
class History {
    constructor(text = "") {
        this.text = text;
        this.done = [];
        this.undone = [];
    }

    /** Takes another text. Changes with the same mark in a row are one step, as the letters typed into one cell. */
    set(text, mark = "") {
        if (text === this.text) return false;
        const last = this.done.at(-1), old = this.text;
        if (mark && last?.mark === mark && !this.undone.length) {
            const before = this.back(last, old);
            this.done.pop();
            if (before !== text) this.done.push({...this.difference(before, text), mark});
        } else {
            this.done.push({...this.difference(old, text), mark});
        }
        this.undone = [];
        this.text = text;
        return true;
    }

    difference(old, text) {
        let from = 0, same = 0;
        const most = Math.min(old.length, text.length);
        while (from < most && old[from] === text[from]) from += 1;
        while (same < most - from && old[old.length - 1 - same] === text[text.length - 1 - same]) same += 1;
        return {from, removed: old.slice(from, old.length - same), added: text.slice(from, text.length - same)};
    }

    back({from, removed, added}, text) {
        return text.slice(0, from) + removed + text.slice(from + added.length);
    }

    undo() {
        const step = this.done.pop();
        if (!step) return null;
        this.undone.push(step);
        this.text = this.back(step, this.text);
        return step;
    }

    redo() {
        const step = this.undone.pop();
        if (!step) return null;
        this.done.push({...step, mark: ""});
        this.text = this.text.slice(0, step.from) + step.added + this.text.slice(step.from + step.removed.length);
        return step;
    }
}

const FIRST_RING = `[ring]
rate = 4
cycle = 1000
gap = 5
cycles = 2500
`;
const FIRST_DRIVE = `[[drive]]
address = 1
slave = 1
t1min = 20
tatmt = 6
t4min = 40
tatat = 12
tmtsy = 15
tmtsg = 30
at = ["S-0-0051"]
mdt = ["S-0-0047"]
block = [
    { idn = "S-0-0047", attribute = 0x00220001, name = "position command value" },
    { idn = "S-0-0051", attribute = 0x00220001, name = "position feedback value", step = 1 },
]
`;
const LISTS = {order: "integer", at: "string", mdt: "string"};

/** What is typed into a cell, as a value of TOML: numbers as they are, other words as texts, the items of a list between blanks or commas. */
function valueText(key, typed) {
    const words = typed.trim();
    if (!(key in LISTS)) return INTEGER.test(words) || FLOAT.test(words) || /^"[^"\\\n]*"$/.test(words) ? words : JSON.stringify(words);
    const items = words.split(/[\s,]+/).filter((it) => it);
    return `[${items.map((it) => (INTEGER.test(it) ? it : JSON.stringify(it))).join(", ")}]`;
}

/** What a cell shows of a node. */
function cellText(reading, node) {
    if (!node) return "";
    if (node.type === "string") return node.value;
    if (node.type !== "list") return reading.text.slice(node.from, node.to);
    return node.items.map((it) => (it.type === "string" ? it.value : reading.text.slice(it.from, it.to))).join(" ");
}

/** Edits of the text that was read: each returns the new text. */
class Edits {
    constructor(reading) {
        this.reading = reading;
        this.text = reading.text;
    }

    replaced(from, to, words) {
        return this.text.slice(0, from) + words + this.text.slice(to);
    }

    /** Sets a key of the ring or of a drive to what was typed; without words the key is removed. */
    set(path, key, typed) {
        const table = this.reading.get(path), node = table?.entries?.get(key);
        if (!table?.entries) return this.text;
        if (!typed.trim()) return node ? this.without(table, node) : this.text;
        const value = valueText(key, typed);
        if (node) return this.replaced(node.from, node.to, value);
        if (table.made === "braces") return this.intoBraces(table, `${key} = ${value}`);
        const end = this.lineEnd(table.last), isOpen = this.text[end - 1] !== "\n";
        // A table that is made by keys with points, as by ring.rate = 4, has no header under which its keys could stand.
        const name = table.made === "header" ? key : `${table.key.name}.${key}`;
        return this.replaced(end, end, `${isOpen ? "\n" : ""}${name} = ${value}\n`);
    }

    intoBraces(table, pair) {
        const isEmpty = !table.entries.size;
        return this.replaced(isEmpty ? table.from + 1 : table.last, isEmpty ? table.from + 1 : table.last, isEmpty ? ` ${pair} ` : `, ${pair}`);
    }

    /** The text without a key: its line, or its part of a table in braces. */
    without(table, node) {
        if (table.made !== "braces") return this.replaced(this.lineStart(node.key.from), this.lineEnd(node.to), "");
        const after = /^\s*,\s*/.exec(this.text.slice(node.to)), before = /,?\s*$/.exec(this.text.slice(0, node.key.from));
        return after ? this.replaced(node.key.from, node.to + after[0].length, "") : this.replaced(before.index, node.to, "");
    }

    lineStart(place) {
        return this.text.lastIndexOf("\n", place - 1) + 1;
    }

    lineEnd(place) {
        const end = this.text.indexOf("\n", place);
        return end < 0 ? this.text.length : end + 1;
    }

    /** The span of each drive's own table with the tables in it, and the comments directly above its header. None if they aren't tables with headers. */
    spans() {
        const drives = this.reading.drives();
        if (drives.some((it) => it.made !== "header")) return null;
        const starts = drives.map((it) => this.above(it.from)), others = [];
        for (const [name, node] of this.reading.top.entries) {
            if (name === "drive") continue;
            for (const table of node.isTables ? node.items : [node]) if (table.made === "header") others.push(this.above(table.from));
        }
        const all = [...starts, ...others, this.text.length].sort((one, other) => one - other);
        return starts.map((from) => ({from, to: all.find((it) => it > from)}));
    }

    /** The start of a header's line, or of the comments right above it. */
    above(place) {
        let start = this.lineStart(place);
        while (start > 0) {
            const before = this.lineStart(start - 1);
            if (!this.text.slice(before, start).trimStart().startsWith("#")) break;
            start = before;
        }
        return start;
    }

    freeAddress(from = 0) {
        const taken = new Set(this.reading.drives().map((it) => it.entries.get("address")?.value));
        for (let address = from + 1; address < 255; address++) if (!taken.has(address)) return address;
        for (let address = 1; address < 255; address++) if (!taken.has(address)) return address;
        return 255;
    }

    /** The text with one more drive: a copy of the drive at a place, after it, or the first one. */
    withDrive(place) {
        const drives = this.reading.drives(), spans = this.spans();
        if (!drives.length) {
            const head = this.reading.get("ring") ? this.text : FIRST_RING + (this.text.trim() ? `\n${this.text}` : "");
            return {text: `${head}${head.endsWith("\n") ? "" : "\n"}\n${FIRST_DRIVE}`, address: 1};
        }
        if (!spans) return null;
        const {from, to} = spans[place], drive = drives[place], old = drive.entries.get("address"), slave = drive.entries.get("slave");
        const address = this.freeAddress(typeof old?.value === "number" ? old.value : 0);
        let copy = this.text.slice(from, to);
        const set = (node, value) => { copy = copy.slice(0, node.from - from) + value + copy.slice(node.to - from); };
        const own = [[slave?.value === old?.value && slave, address], [old, address]].filter(([node]) => node);
        for (const [node, value] of own.sort(([one], [other]) => other.from - one.from)) set(node, value);
        const gap = /\n\s*\n$/.test(copy) ? "" : copy.endsWith("\n") ? "\n" : "\n\n", isLast = to === this.text.length;
        let text = this.replaced(to, to, isLast ? gap + copy.trimEnd() + "\n" : gap + copy);
        const order = this.reading.get("ring.order");
        if (order?.type === "list" && order.from < to) text = text.slice(0, order.to - 1) + (order.items.length ? ", " : "") + address + text.slice(order.to - 1);
        return {text, address, place: place + 1};
    }

    /** What refers to a drive: the tables and list items that would be refused without it. */
    references(place) {
        const {reading} = this, address = reading.drives()[place].entries.get("address")?.value, number = reading.drives().length;
        const of = (name, test) => reading.items(name).filter((it) => it.entries && test((key) => it.entries.get(key)?.value));
        return {
            address,
            requests: of("request", (value) => value("drive") === address),
            faults: of("fault", (value) => value("from") === address || value("station") === address || value("link") >= number),
            order: reading.items("ring.order").filter((it) => it.value === address),
        };
    }

    /** The text without a drive, and without what refers to it. */
    withoutDrive(place) {
        const spans = this.spans();
        if (!spans) return null;
        const {requests, faults, order} = this.references(place), cuts = [spans[place]];
        for (const table of [...requests, ...faults]) cuts.push({from: this.above(table.from), to: this.tableEnd(table)});
        for (const item of order) {
            const after = /^\s*,\s*/.exec(this.text.slice(item.to)), before = /,?\s*$/.exec(this.text.slice(0, item.from));
            cuts.push(after ? {from: item.from, to: item.to + after[0].length} : {from: before.index, to: item.to});
        }
        let text = this.text;
        for (const {from, to} of cuts.sort((one, other) => other.from - one.from)) text = text.slice(0, from) + text.slice(to);
        return text;
    }

    tableEnd(table) {
        const end = this.lineEnd(table.last), blank = /^[ \t]*\n/.exec(this.text.slice(end));
        return end + (blank ? blank[0].length : 0);
    }

    /** The text in which a key of all drives below one has its value. */
    filledDown(place, key) {
        const drives = this.reading.drives(), node = drives[place].entries.get(key);
        const typed = cellText(this.reading, node);
        let edits = this;
        for (let below = place + 1; below < drives.length; below++) edits = new Edits(new Reading(edits.set(`drive[${below}]`, key, typed)));
        return edits.text;
    }

    /** The text with another cycle time, and a control unit cycle time that is a multiple of it. */
    withCycle(cycle) {
        const control = this.reading.value("ring.control", "integer");
        const text = this.set("ring", "cycle", String(cycle));
        if (control === null || control % cycle === 0) return text;
        return new Edits(new Reading(text)).set("ring", "control", String(cycle));
    }
}

if (typeof module !== "undefined") module.exports = {History, Edits, valueText, cellText};
