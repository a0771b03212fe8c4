// The proved library in a WebAssembly module, for the page and for programs in JavaScript: docs/EMBEDDING.md, section 'In JavaScript'.
//
// It keeps what include/sercos.h asks of a caller. Addresses and lengths of the module have 64 bits, so they are BigInts here, whether
// the module's memory has 64-bit addresses or was lowered to 32 bits.

const KINDS = ["mst", "at", "mdt"];
// How the bits of a telegram arrive.
const ARRIVAL = ["as sent", "other frame", "damaged", "nothing"];
const STATUS = ["Done", "No", "BadWords", "Refused", "ReadFault", "WriteFault", "Memory", "TooLong", "Closed"];
const DONE = 0, REFUSED = 3, WRITE_FAULT = 5;
const MOST_FRAME = 2462;
const FIRST_ROOM = 1 << 20, MOST_ROOM = 1 << 29;

/** What ended an instance of the module: the call gave no answer, and the next one begins with a new instance. */
class Trap extends Error {}

function bytesOf(text) {
    return typeof text === "string" ? new TextEncoder().encode(text) : text;
}

class Sercos {
    /** `module` is a WebAssembly.Module of sercos.wasm. */
    constructor(module) {
        this.module = module;
        this.begin();
    }

    begin() {
        this.exports = new WebAssembly.Instance(this.module).exports;
        this.instance = (this.instance || 0) + 1;
    }

    /** Whatever is thrown leaves the module's stack and memory in an unknown state. Engines name a full stack differently. */
    guarded(work) {
        try {
            return work();
        } catch (fault) {
            this.begin();
            throw new Trap(fault.message);
        }
    }

    /** The memory at an address. When the memory grows, an older view of it is empty. */
    memory(at, length) {
        return new Uint8Array(this.exports.memory.buffer, Number(at), length);
    }

    number(at) {
        return Number(new DataView(this.exports.memory.buffer).getBigUint64(Number(at), true));
    }

    short(at) {
        return new DataView(this.exports.memory.buffer).getUint32(Number(at), true);
    }

    take(length) {
        const at = this.exports.memory_take(BigInt(length));
        if (at === 0n) throw new Error("no memory");
        return at;
    }

    placed(bytes) {
        const at = this.take(bytes.length);
        this.memory(at, bytes.length).set(bytes);
        return at;
    }

    give(...places) {
        for (const at of places) this.exports.memory_give(at);
    }

    /** The status that a function returns: a byte, whose other bits are not specified. */
    status(name, ...words) {
        return this.exports[name](...words) & 0xff;
    }

    /** How many blocks of memory are taken. */
    taken() {
        return Number(this.exports.memory_taken());
    }

    /**
     * Runs a command over an input, as the program does: `words` are its words, `input` is a text or bytes. Returns the status, and the
     * output as bytes. If the room for the output was too small, the command is run again with more. Throws a Trap if the stack of the
     * module or of the engine was too small, as for documents nested a thousand tables deep.
     */
    call(words, input = "", room = FIRST_ROOM) {
        return this.guarded(() => {
            const list = bytesOf(words.map((word) => `${word}\n`).join("")), whole = bytesOf(input);
            const places = [this.placed(list), this.placed(whole), this.take(8)], [first, second, count] = places;
            for (;; room *= 8) {
                const out = this.take(room);
                const status = this.status("sercos_call", first, BigInt(list.length), second, BigInt(whole.length), out, BigInt(room), count);
                const written = this.number(count), output = this.memory(out, written).slice();
                this.give(out);
                const isCut = status === WRITE_FAULT || (status === REFUSED && written === room);
                if (!isCut || room >= MOST_ROOM) {
                    this.give(...places);
                    return {status, output};
                }
            }
        });
    }

    /** The check sequence of a content. */
    fcs(content) {
        return this.guarded(() => {
            const at = this.placed(content), found = this.exports.sercos_fcs(at, BigInt(content.length)) & 0xffff;
            this.give(at);
            return found;
        });
    }

    /** The frame of a content of 1 to 2,048 bytes: its bits, packed into bytes, and their number. */
    frame(content) {
        return this.guarded(() => {
            const places = [this.placed(content), this.take(MOST_FRAME), this.take(8)], [at, out, count] = places;
            const status = this.status("sercos_frame", at, BigInt(content.length), out, BigInt(MOST_FRAME), count);
            const length = this.short(count), packed = this.memory(out, Math.ceil(length / 8)).slice();
            this.give(...places);
            if (status !== DONE) throw new Error(`a content has 1 to 2,048 bytes, and this one ${content.length}`);
            return {packed, length};
        });
    }

    /** Opens the ring of a document. */
    ring(document) {
        return new Ring(this, document);
    }

    /** Opens the links of the ring of a document. */
    links(document) {
        return new Links(this, document);
    }
}

/** A ring under its document's script. `status` is 0 if it is open, and otherwise says why not. */
class Ring {
    constructor(sercos, document) {
        this.sercos = sercos;
        sercos.guarded(() => {
            const text = bytesOf(document), at = sercos.placed(text);
            Object.assign(this, {instance: sercos.instance, handle: sercos.placed(new Uint8Array(16)), count: sercos.take(8), room: 1 << 16});
            this.out = sercos.take(this.room);
            this.status = sercos.status("sercos_ring_open", at, BigInt(text.length), this.handle);
            sercos.give(at);
        });
    }

    check() {
        if (this.instance !== this.sercos.instance) throw new Trap("the ring was lost when its instance of the module ended");
    }

    /** The bytes that a function writes; with too little room it is called again. */
    text(name) {
        this.check();
        return this.sercos.guarded(() => {
            const {sercos} = this;
            for (;;) {
                const status = sercos.status(name, this.handle, this.out, BigInt(this.room), this.count);
                if (status === DONE) return sercos.memory(this.out, sercos.number(this.count)).slice();
                if (status !== WRITE_FAULT) throw new Error(`${name} has status ${status}`);
                sercos.give(this.out);
                this.room *= 8;
                this.out = sercos.take(this.room);
            }
        });
    }

    /** The first lines of the trace: version, ring, drives, order. */
    head() {
        return this.text("sercos_ring_head");
    }

    /** Makes the next cycle. Returns whether there was one. */
    cycle() {
        this.check();
        return this.sercos.guarded(() => this.sercos.status("sercos_ring_cycle", this.handle) === DONE);
    }

    /** The lines of the cycle that was made last. */
    lines() {
        return this.text("sercos_ring_lines");
    }

    /** The last line: the totals of the cycles made so far. */
    end() {
        return this.text("sercos_ring_end");
    }

    close() {
        if (this.instance !== this.sercos.instance) return;
        this.instance = 0;
        this.sercos.guarded(() => {
            this.sercos.exports.sercos_ring_close(this.handle);
            this.sercos.give(this.handle, this.count, this.out);
        });
    }
}

/**
 * The links of a document's ring under its script: what each station receives. `status` is 0 if they are open, and otherwise says why not.
 * Station 0 is the master, station k + 1 the drive at place k.
 */
class Links {
    constructor(sercos, document) {
        this.sercos = sercos;
        sercos.guarded(() => {
            const text = bytesOf(document), at = sercos.placed(text);
            Object.assign(this, {instance: sercos.instance, handle: sercos.placed(new Uint8Array(16)), told: sercos.take(8)});
            this.bits = sercos.take(MOST_FRAME);
            this.out = sercos.take(MOST_FRAME);
            this.status = sercos.status("sercos_links_open", at, BigInt(text.length), this.handle);
            sercos.give(at);
        });
    }

    check() {
        if (this.instance !== this.sercos.instance) throw new Trap("the links were lost when their instance of the module ended");
    }

    /** What arrives at a station of the bits that another one, or the master itself, sends as an "mst", "at" or "mdt". */
    passed(cycle, kind, from, to, {packed, length}) {
        this.check();
        if (packed.length > MOST_FRAME) throw new Error(`at most ${8 * MOST_FRAME} bits`);
        return this.sercos.guarded(() => {
            const {sercos} = this, how = this.told + 4n;
            sercos.memory(this.bits, packed.length).set(packed);
            const status = sercos.status("sercos_links_pass", this.handle, cycle, KINDS.indexOf(kind), from, to, this.bits,
                BigInt(packed.length), BigInt(length), this.out, BigInt(MOST_FRAME), this.told, how);
            if (status !== DONE) throw new Error(`sercos_links_pass has status ${status}`);
            const count = sercos.short(this.told);
            return {arrival: ARRIVAL[sercos.memory(how, 1)[0]], packed: sercos.memory(this.out, Math.ceil(count / 8)).slice(), length: count};
        });
    }

    /** Whether a station restarts in a cycle, before its MST. */
    restarts(cycle, station) {
        this.check();
        return this.sercos.guarded(() => {
            const status = this.sercos.status("sercos_links_restart", this.handle, cycle, station, this.told);
            if (status !== DONE) throw new Error(`sercos_links_restart has status ${status}`);
            return this.sercos.memory(this.told, 1)[0] !== 0;
        });
    }

    close() {
        if (this.instance !== this.sercos.instance) return;
        this.instance = 0;
        this.sercos.guarded(() => {
            this.sercos.exports.sercos_links_close(this.handle);
            this.sercos.give(this.handle, this.told, this.bits, this.out);
        });
    }
}

if (typeof module !== "undefined") module.exports = {Sercos, Ring, Links, Trap, ARRIVAL, STATUS};
