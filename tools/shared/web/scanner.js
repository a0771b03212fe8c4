// Where each value of a ring document is in its text: a reader of TOML that keeps places. The program alone decides what a document means;
// this reading is for the table, for marks in the text, and for edits that leave every other byte as it is.

/** Where a text stops being TOML as this reader knows it. */
class Stumble extends Error {
    constructor(place, words) {
        super(words);
        this.place = place;
    }
}

const BARE = /[A-Za-z0-9_-]+/y, BLANK = /[ \t]*/y;
const INTEGER = /^[+-]?(0|[1-9](_?\d)*)$|^0x[\da-fA-F](_?[\da-fA-F])*$|^0o[0-7](_?[0-7])*$|^0b[01](_?[01])*$/;
const FLOAT = /^[+-]?((0|[1-9](_?\d)*)(\.\d(_?\d)*)?([eE][+-]?\d(_?\d)*)?|inf|nan)$/;
const DATE = /^(\d{4}-\d\d-\d\d([Tt ]\d\d:\d\d(:\d\d(\.\d+)?)?([Zz]|[+-]\d\d:\d\d)?)?|\d\d:\d\d(:\d\d(\.\d+)?)?)$/;
const ESCAPES = {b: "\b", t: "\t", n: "\n", f: "\f", r: "\r", e: "\x1b", '"': '"', "\\": "\\"};
const MOST_DEPTH = 400;

/** The path of an item of a list, or of a key, as the program spells it in a refusal. */
function pathOf(parent, key) {
    return typeof key === "number" ? `${parent}[${key}]` : parent ? `${parent}.${key}` : key;
}

/**
 * A node of a document: its type (table, list, string, integer, float, boolean, date), its value or parts, and its place in the text. Of a
 * table `from` and `to` are its header or its braces, and `last` is where its own keys end.
 */
class Scanner {
    constructor(text) {
        this.text = text;
        this.place = 0;
        this.depth = 0;
        this.top = this.table("header", 0, 0);
    }

    table(made, from, to) {
        return {type: "table", made, entries: new Map(), from, to, last: to};
    }

    stumble(words, place = this.place) {
        throw new Stumble(place, words);
    }

    match(pattern) {
        pattern.lastIndex = this.place;
        const found = pattern.exec(this.text)?.[0] ?? "";
        this.place += found.length;
        return found;
    }

    is(mark) {
        return this.text.startsWith(mark, this.place);
    }

    taken(mark) {
        if (!this.is(mark)) return false;
        this.place += mark.length;
        return true;
    }

    blanks() {
        this.match(BLANK);
    }

    comment() {
        if (!this.is("#")) return;
        const end = this.text.indexOf("\n", this.place), to = end < 0 ? this.text.length : end;
        const odd = this.text.slice(this.place, to).search(/[\0-\x08\x0a-\x1f\x7f](?!$)|[\0-\x08\x0b\x0c\x0e-\x1f\x7f]$/);
        if (odd >= 0) this.stumble("a control character in a comment", this.place + odd);
        this.place = to;
    }

    /** Blanks, comments and ends of lines. */
    space() {
        for (;;) {
            this.blanks();
            this.comment();
            if (!this.taken("\n") && !this.taken("\r\n")) return;
        }
    }

    lineEnd() {
        this.blanks();
        this.comment();
        if (this.place < this.text.length && !this.taken("\n") && !this.taken("\r\n")) this.stumble("more on the line than one key and its value");
    }

    document() {
        let table = this.top;
        for (this.space(); this.place < this.text.length; this.space()) {
            if (this.is("[")) {
                table = this.header();
            } else {
                this.pair(table);
                table.last = this.place;
            }
            this.lineEnd();
        }
        return this.top;
    }

    key() {
        const from = this.place;
        const name = this.is('"') || this.is("'") ? this.string(false) : this.match(BARE);
        if (this.place === from) this.stumble(this.place < this.text.length ? "no key" : "the text ends where a key is due");
        return {name, from, to: this.place};
    }

    keys() {
        const found = [];
        do {
            this.blanks();
            found.push(this.key());
            this.blanks();
        } while (this.taken("."));
        return found;
    }

    /** A header, [name] or [[name]], and the table that it opens. */
    header() {
        const from = this.place, isList = this.taken("[["), end = isList ? "]]" : "]";
        if (!isList) this.taken("[");
        const keys = this.keys(), last = keys.pop();
        if (!this.taken(end)) this.stumble(`no ${end} at the end of a header`);
        let table = this.top;
        for (const key of keys) table = this.inner(table, key, "implied");
        const known = table.entries.get(last.name), to = this.place;
        if (isList) return this.item(table, last, known, from, to);
        if (!known) return this.put(table, last, this.table("header", from, to));
        if (known.type !== "table" || known.made !== "implied") this.stumble(`${last.name} is there already`, last.from);
        return Object.assign(known, {made: "header", from, to, last: to, key: last});
    }

    item(table, key, known, from, to) {
        const list = known ?? this.put(table, key, {type: "list", items: [], isTables: true, from, to});
        if (!list.isTables) this.stumble(`${key.name} is there already, and isn't a list of tables`, key.from);
        const made = this.table("header", from, to);
        made.key = key;
        list.items.push(made);
        return made;
    }

    /** The table of a key that is before the last one of a header or of a pair. */
    inner(table, key, made) {
        let found = table.entries.get(key.name);
        if (!found) found = this.put(table, key, this.table(made, key.from, key.to));
        if (found.isTables) found = found.items.at(-1);
        const isOpen = found.type === "table" && found.made !== "braces" && (made === "implied" || found.made === "dotted");
        if (!isOpen) this.stumble(`${key.name} can't be added to`, key.from);
        return found;
    }

    put(table, key, node) {
        if (table.entries.has(key.name)) this.stumble(`${key.name} is there already`, key.from);
        node.key = key;
        table.entries.set(key.name, node);
        return node;
    }

    pair(table) {
        const keys = this.keys(), last = keys.pop();
        let owner = table;
        for (const key of keys) owner = this.inner(owner, key, "dotted");
        if (owner.entries.has(last.name)) this.stumble(`${last.name} is there already`, last.from);
        if (!this.taken("=")) this.stumble("no = after a key");
        this.blanks();
        this.put(owner, last, this.value());
    }

    value() {
        const from = this.place;
        if (this.is('"') || this.is("'")) {
            const value = this.string(true);
            return {type: "string", value, from, to: this.place};
        }
        if (this.is("[") || this.is("{")) {
            if (this.depth === MOST_DEPTH) this.stumble("too many lists and tables in one another");
            this.depth += 1;
            const found = this.is("[") ? this.list() : this.braces();
            this.depth -= 1;
            return found;
        }
        return this.plain(from);
    }

    /** A number, a boolean or a date. */
    plain(from) {
        const word = this.match(/\d{4}-\d\d-\d\d \d\d:[^\s,\]}#]*|[^\s,\]}#=]*/y), to = this.place;
        if (!word) this.stumble(this.place < this.text.length ? "no value" : "the text ends where a value is due", from);
        if (word === "true" || word === "false") return {type: "boolean", value: word === "true", from, to};
        if (INTEGER.test(word)) {
            const digits = word.replaceAll("_", "").replace("+", ""), size = BigInt(digits.replace("-", ""));
            const value = digits.startsWith("-") ? -size : size;
            if (BigInt.asIntN(64, value) !== value) this.stumble("an integer of more than 64 bits", from);
            return {type: "integer", value: Number.isSafeInteger(Number(value)) ? Number(value) : value, from, to};
        }
        if (FLOAT.test(word)) return {type: "float", value: word, from, to};
        if (DATE.test(word)) return {type: "date", value: word, from, to};
        return this.stumble(`${word} is no value`, from);
    }

    list() {
        const from = this.place, items = [];
        this.taken("[");
        for (this.space(); !this.taken("]"); this.space()) {
            if (this.place >= this.text.length) this.stumble("the text ends in a list");
            items.push(this.value());
            this.space();
            if (!this.taken(",") && !this.is("]")) this.stumble("no comma between the items of a list");
        }
        return {type: "list", items, from, to: this.place};
    }

    braces() {
        const from = this.place, made = this.table("dotted", from, from);
        this.taken("{");
        for (this.space(); !this.taken("}"); this.space()) {
            if (this.place >= this.text.length) this.stumble("the text ends in a table");
            this.pair(made);
            made.last = this.place;
            this.space();
            if (!this.taken(",") && !this.is("}")) this.stumble("no comma between the keys of a table");
        }
        return Object.assign(made, {made: "braces", to: this.place});
    }

    string(mayBeLong) {
        const mark = this.text[this.place], long = mark.repeat(3);
        if (mayBeLong && this.taken(long)) return this.longString(mark, long);
        const from = this.place;
        this.taken(mark);
        let value = "";
        while (!this.taken(mark)) {
            if (this.place >= this.text.length || this.is("\n") || this.is("\r\n")) this.stumble("a text without an end", from);
            value += this.letter(mark);
        }
        return value;
    }

    longString(mark, long) {
        const from = this.place;
        if (!this.taken("\n")) this.taken("\r\n");
        let value = "";
        while (!this.taken(long)) {
            if (this.place >= this.text.length) this.stumble("a text without an end", from);
            if (mark === '"' && this.match(/\\[ \t]*\r?\n/y)) this.match(/[ \t\r\n]*/y);
            else if (this.taken("\n") || this.taken("\r\n")) value += "\n";
            else value += this.letter(mark);
        }
        for (let more = 0; more < 2 && this.taken(mark); more++) value += mark;
        return value;
    }

    letter(mark) {
        const place = this.place, letter = this.text[place];
        this.place += 1;
        if (/[\0-\x08\x0a-\x1f\x7f]/.test(letter)) this.stumble("a control character in a text", place);
        if (mark === "'" || letter !== "\\") return letter;
        const escape = this.text[this.place];
        this.place += 1;
        if (escape in ESCAPES) return ESCAPES[escape];
        const digits = {x: 2, u: 4, U: 8}[escape] ?? 0, code = this.text.slice(this.place, this.place + digits);
        if (!digits || !/^[\da-fA-F]+$/.test(code) || code.length < digits) this.stumble("no such escape in a text", place);
        const number = parseInt(code, 16);
        if (number > 0x10ffff || (number >= 0xd800 && number < 0xe000)) this.stumble("no such character", place);
        this.place += digits;
        return String.fromCodePoint(number);
    }
}

/** A document that was read: its top table, and each node by its path. If it isn't TOML, `stumble` says where that is seen. */
class Reading {
    constructor(text) {
        this.text = text;
        this.paths = new Map();
        this.stumble = null;
        const scanner = new Scanner(text);
        try {
            this.top = scanner.document();
        } catch (fault) {
            if (!(fault instanceof Stumble)) throw fault;
            this.top = scanner.top;
            this.stumble = fault;
        }
        this.note(this.top);
    }

    /** Notes each node by its path. A list of what is left, since tables may be nested deeper than calls. */
    note(top) {
        const left = [["", top]];
        while (left.length) {
            const [path, node] = left.pop();
            if (!this.paths.has(path)) this.paths.set(path, node);
            for (const [key, inner] of node.entries ?? []) left.push([pathOf(path, key), inner]);
            node.items?.forEach((inner, place) => left.push([pathOf(path, place), inner]));
        }
    }

    get(path) {
        return this.paths.get(path);
    }

    /** The value at a path if it is of a type, or another one in its place. */
    value(path, type, other = null) {
        const node = this.get(path);
        return node?.type === type ? node.value : other;
    }

    /** The items of a list at a path. */
    items(path) {
        return this.get(path)?.items ?? [];
    }

    drives() {
        return this.items("drive").filter((it) => it.type === "table");
    }
}

if (typeof module !== "undefined") module.exports = {Reading, Stumble};
