// A line of `show`: its bits drawn with flags, inserted zeros, content and check sequence, and the program's answer.

const FLAG = "01111110";

function bitsOf(count, hex) {
    const bits = [];
    for (let place = 0; place < count; place++) bits.push(parseInt(hex.slice(2 * (place >> 3), 2 * (place >> 3) + 2), 16) >> (place & 7) & 1);
    return bits;
}

/** What each bit of a frame is: flag, inserted, a bit of a byte, or after the frame. The bytes are those between the flags. */
function anatomy(bits) {
    const kinds = bits.map(() => ({kind: "other"})), bytes = [], flagAt = (place) => FLAG === bits.slice(place, place + 8).join("");
    if (!flagAt(0)) return {kinds, bytes};
    let place = 8, ones = 0, taken = [];
    for (let bit = 0; bit < 8; bit++) kinds[bit] = {kind: "flag"};
    while (place < bits.length) {
        if (flagAt(place)) {
            for (let bit = 0; bit < 8; bit++) kinds[place + bit] = {kind: "flag"};
            break;
        }
        if (ones === 5) {
            kinds[place] = {kind: bits[place] ? "abort" : "inserted"};
            if (bits[place]) break;
            ones = 0;
        } else {
            kinds[place] = {kind: "content", byte: bytes.length};
            taken.push(bits[place]);
            ones = bits[place] ? ones + 1 : 0;
            if (taken.length === 8) {
                bytes.push(taken.reduce((sum, bit, at) => sum | bit << at, 0));
                taken = [];
            }
        }
        place += 1;
    }
    for (const it of kinds) if (it.kind === "content" && it.byte >= bytes.length - 2) it.kind = it.byte < bytes.length ? "check" : "content";
    return {kinds, bytes};
}

const KIND_WORDS = {flag: "flag", inserted: "inserted zero", content: "content", check: "check sequence", abort: "six ones in a row", other: "not of a frame"};

class BitsView {
    constructor(parts, words, program) {
        Object.assign(this, {parts, words, program});
        parts.line.addEventListener("input", () => this.show());
    }

    async show() {
        const line = this.parts.line.value.trim(), found = /^(\w+) (\d+) ([\da-fA-F]+)$/.exec(line);
        let answer;
        try {
            answer = await this.program.call(["show"], `${line}\n`);
        } catch (fault) {
            answer = {output: `no answer: ${fault.message}\n`};
        }
        if (line !== this.parts.line.value.trim()) return;
        const bad = /^(error|layout) (\d)/.exec(answer.output), known = bad && this.words.frames[bad[0]];
        const parts = [element("p", {class: bad || answer.status === 3 ? "bad" : "good"}, element("code", {}, answer.output.trim()))];
        if (known) parts.push(element("p", {}, `${known.means}. `, known.look ? element("span", {class: "muted"}, `Look first at: ${known.look}`) : ""));
        if (answer.status === 3) parts.push(element("p", {class: "muted"}, "A line is KIND COUNT HEX: raw, mst, single or at; the number of bits; the bits, the first one as the least significant of the first byte."));
        if (found && Number(found[2]) <= 4 * found[3].length && Number(found[2]) < 20000) parts.push(...this.drawn(bitsOf(Number(found[2]), found[3])));
        this.parts.answer.replaceChildren(...parts);
        this.parts.part.dataset.answer = answer.output.trim();
    }

    drawn(bits) {
        const {kinds, bytes} = anatomy(bits), groups = [], counts = {};
        bits.forEach((bit, place) => {
            const it = kinds[place], last = groups.at(-1), key = `${it.kind} ${it.byte ?? ""}`;
            counts[it.kind] = (counts[it.kind] ?? 0) + 1;
            if (last && (last.key === key || (it.kind === "inserted" && last.byte !== undefined))) last.bits.push([bit, it.kind]);
            else if (last && it.byte !== undefined && last.byte === it.byte) last.bits.push([bit, it.kind]);
            else groups.push({key, kind: it.kind, byte: it.byte, bits: [[bit, it.kind]]});
        });
        const boxes = groups.map((it) => element("span", {class: `byte ${it.kind}`, title: KIND_WORDS[it.kind]},
            element("span", {class: "digits"}, ...it.bits.map(([bit, kind]) => (kind === "inserted" ? element("mark", {class: "inserted", title: KIND_WORDS.inserted}, "0") : String(bit)))),
            element("small", {}, it.byte === undefined ? KIND_WORDS[it.kind] : bytes[it.byte] === undefined ? "part of a byte" : `0x${bytes[it.byte].toString(16).padStart(2, "0")}`)));
        const list = Object.entries(counts).map(([kind, count]) => `${plural(count, "bit")}: ${KIND_WORDS[kind]}`).join(", ");
        return [element("p", {class: "muted"}, list), element("div", {class: "bits"}, ...boxes)];
    }
}

if (typeof module !== "undefined") module.exports = {bitsOf, anatomy};
