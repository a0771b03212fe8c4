// The data of the page: texts, and columns of numbers that are read where they lie.

const MST = 0, AT = 1, MDT = 2;
const ROW = 0, EVENT = 1, IDLE = 2;
const BIT_NAMES = ["0", "1", "-"];

async function unpacked(text) {
    const letters = atob(text);
    const packed = new Uint8Array(letters.length);
    for (let place = 0; place < packed.length; place++) packed[place] = letters.charCodeAt(place);
    const stream = new Blob([packed]).stream().pipeThrough(new DecompressionStream("deflate"));
    return new Response(stream).arrayBuffer();
}

/** The first place of an ascending list whose value is at least the wanted one. */
function firstFrom(list, wanted, value = (item) => item) {
    let low = 0, high = list.length;
    while (low < high) {
        const middle = (low + high) >> 1;
        if (value(list[middle]) < wanted) low = middle + 1; else high = middle;
    }
    return low;
}

/** A run: its cycles by their place, counted from 0, and what was sent in each. */
class Run {
    constructor(buffer) {
        const whole = (length) => length + (-length & 3);
        const length = new DataView(buffer).getUint32(0, true);
        this.meta = JSON.parse(new TextDecoder().decode(new Uint8Array(buffer, 4, length)));
        this.columns = {};
        let place = 4 + whole(length);
        for (const [name, type, count] of this.meta.columns) {
            const kind = {Uint8Array, Uint16Array, Int32Array, Uint32Array}[type];
            this.columns[name] = new kind(buffer, place, count);
            place += whole(count * kind.BYTES_PER_ELEMENT);
        }
        this.first = this.meta.first;
        this.cycles = this.meta.cycles;
        this.last = this.first + this.cycles - 1;
        this.rate = this.meta.ring.rate;
        this.drives = this.meta.drives;
        this.events = this.meta.events.map(([cycle, kind, text, more, drive]) => ({cycle, kind, text, more, drive}));
        this.sums();
        this.divide();
    }

    /** Where the telegrams of each cycle begin, where the bytes of each telegram do, and when each cycle begins. */
    sums() {
        const {telegrams, length, phase} = this.columns;
        this.firstTelegram = new Uint32Array(this.cycles + 1);
        this.begin = new Float64Array(this.cycles + 1);
        for (let place = 0; place < this.cycles; place++) {
            this.firstTelegram[place + 1] = this.firstTelegram[place] + (telegrams[place] & 0x7fff);
            this.begin[place + 1] = this.begin[place] + this.cycleTime(phase[place]);
        }
        this.firstByte = new Uint32Array(length.length + 1);
        for (let place = 0; place < length.length; place++) this.firstByte[place + 1] = this.firstByte[place] + length[place];
    }

    /** The columns of each drive. */
    divide() {
        let row = 0, at = 0, record = 1;
        this.byAddress = new Map();
        this.drives.forEach((drive, place) => {
            const rows = row + this.meta.rows[place], ats = at + this.meta.missing[place];
            const part = (name) => this.columns[name].subarray(row, rows);
            drive.place = place;
            drive.rows = {cycle: part("row_cycle"), answer: part("row_answer"), step: part("row_step"), bits: part("row_bits")};
            drive.missing = this.columns.at_cycle.subarray(at, ats);
            drive.phases = this.meta.phases[place];
            drive.record = record;
            record += drive.record_length;
            row = rows;
            at = ats;
            this.byAddress.set(drive.address, drive);
        });
    }

    cycleTime(phase) {
        return phase < 3 ? 1000 : this.meta.ring.cycle_time;
    }

    phase(cycle) {
        return this.columns.phase[cycle - this.first];
    }

    /** When a cycle begins, in microseconds after the beginning of the first one. */
    time(cycle) {
        return this.begin[cycle - this.first];
    }

    telegrams(cycle) {
        const place = cycle - this.first, {telegrams, start, bits} = this.columns;
        const found = [];
        for (let number = this.firstTelegram[place]; number < this.firstTelegram[place + 1]; number++) {
            const bytes = this.columns.content.subarray(this.firstByte[number], this.firstByte[number + 1]);
            const isLast = number + 1 === this.firstTelegram[place + 1];
            const kind = number === this.firstTelegram[place] ? MST : isLast && telegrams[place] & 0x8000 ? MDT : AT;
            found.push({cycle, kind, start: start[number] / this.rate, bits: bits[number], bit: start[number],
                        end: (start[number] + bits[number]) / this.rate, bytes, drive: kind === AT ? bytes[0] : 0});
        }
        return found;
    }

    lost(cycle) {
        const list = this.meta.lost, found = [];
        for (let place = firstFrom(list, cycle, (it) => it[0]); place < list.length && list[place][0] === cycle; place++)
            found.push({kind: list[place][1], drive: list[place][2], words: list[place][3]});
        return found;
    }

    eventsOf(cycle) {
        return this.events.slice(firstFrom(this.events, cycle, (it) => it.cycle), firstFrom(this.events, cycle + 1, (it) => it.cycle));
    }

    isMissing(drive, cycle) {
        return drive.missing[firstFrom(drive.missing, cycle)] === cycle;
    }

    /** The phase of a drive in a cycle, or nothing before the first line that tells it. */
    phaseOfDrive(drive, cycle) {
        const place = firstFrom(drive.phases, cycle + 1, (it) => it[0]) - 1;
        return place < 0 ? null : drive.phases[place][1];
    }

    /** The newest plan that was made before a cycle. */
    plan(cycle) {
        const place = firstFrom(this.meta.plans, cycle, (it) => it.cycle) - 1;
        return place < 0 ? null : this.meta.plans[place];
    }

    /** The place of the row that a drive's channel has for a cycle: the last that isn't later. */
    rowAt(drive, cycle) {
        return firstFrom(drive.rows.cycle, cycle + 1) - 1;
    }

    row(drive, place) {
        const {cycle, answer, step, bits} = drive.rows, kind = bits[place] & 3;
        const base = {cycle: cycle[place], kind};
        if (kind === IDLE) return {...base, last: answer[place]};
        if (kind === EVENT) return {...base, text: this.meta.texts[answer[place]]};
        return {...base, ahs: BIT_NAMES[bits[place] >> 2 & 3], answer: this.meta.texts[answer[place]],
                mhs: BIT_NAMES[bits[place] >> 4 & 3], step: this.meta.texts[step[place]]};
    }

    /** The words of a drive's step and answer in a cycle, if its channel has a row of it. */
    rowOf(drive, cycle) {
        for (let place = this.rowAt(drive, cycle); place >= 0 && drive.rows.cycle[place] === cycle; place--) {
            const row = this.row(drive, place);
            if (row.kind === ROW) return row;
        }
        return null;
    }

    nameOf(idn) {
        return this.meta.names[idn] || "";
    }
}

function milliseconds(time) {
    return `${Number((time / 1000).toFixed(4))} ms`;
}
