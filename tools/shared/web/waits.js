// Which declared times hold a slot, and what each link of a chain adds. Times are in microseconds after the end of the MST; the rules are
// those of docs/PROTOCOL.md, section 'The twelve inequalities'.

const DECLARED = {t1min: "T1min", tatmt: "TATMT", t4min: "T4min", tatat: "TATAT", tmtsy: "TMTSY", tmtsg: "TMTSG"};
const KEY_OF = Object.fromEntries(Object.entries(DECLARED).map(([key, name]) => [name, key]));

/** The numbers of a ring, from the head of its trace. */
class Times {
    constructor(head) {
        this.drives = new Map();
        for (const line of head.split("\n")) {
            const [word, ...rest] = line.split(" "), numbers = rest.map(Number);
            if (word === "ring") [this.rate, this.cycle, this.control, this.gap] = numbers;
            if (word === "order") this.order = numbers;
            if (word !== "drive") continue;
            const [address, slave, t1min, tatmt, t4min, tatat, tmtsy, tmtsg, atLength, recordLength] = numbers;
            const place = this.drives.size;
            this.drives.set(address, {place, address, slave, t1min, tatmt, t4min, tatat, tmtsy, tmtsg, atLength, recordLength});
        }
        this.mst = this.longest(2);
        this.records = [...this.drives.values()].reduce((sum, drive) => sum + drive.recordLength, 0);
        this.mdt = this.longest(1 + this.records);
    }

    longest(bytes) {
        return mostBits(bytes) / this.rate;
    }

    at(address) {
        return this.longest(1 + this.drives.get(address).atLength);
    }

    /** The first drive of the ring with the greatest time of this name. */
    most(key) {
        return [...this.drives.values()].reduce((best, drive) => drive[key] > best[key] ? drive : best);
    }
}

/** A time that is waited for: of which rule, its name, the drive that declares it, or 0, after or before what, from when to when. */
function wait(rule, name, drive, of, begin, end) {
    return {rule, name, drive, of, begin, end};
}

function atWaits(times, starts, place) {
    const {order, gap} = times, drive = times.drives.get(order[place]);
    const waits = [wait(1, "T1min", drive.address, `of drive ${drive.address}`, 0, drive.t1min)];
    if (place === 0) return [...waits, wait(2, "gap", 0, "after the MST", 0, gap)];
    const endOf = (address) => starts.get(address) + times.at(address);
    const before = order[place - 1];
    if (times.drives.get(before).slave !== drive.slave)
        waits.push(wait(3, "gap", 0, `after the AT of drive ${before}`, endOf(before), endOf(before) + gap));
    const same = order.slice(0, place).findLast((other) => times.drives.get(other).slave === drive.slave);
    if (same !== undefined)
        waits.push(wait(4, "TATAT", drive.address, `after the AT of drive ${same}`, endOf(same), endOf(same) + drive.tatat));
    return waits;
}

function mdtWaits(times, starts) {
    const end = (address) => starts.get(address) + times.at(address), last = times.order.at(-1);
    const waits = [wait(5, "gap", 0, `after the AT of drive ${last}`, end(last), end(last) + times.gap)];
    for (const address of times.order)
        waits.push(wait(6, "TATMT", address, `after the AT of drive ${address}`, end(address), end(address) + times.drives.get(address).tatmt));
    return waits;
}

/** What is kept free between the MDT and the next MST. */
function lastWait(times) {
    const drive = times.most("tmtsy"), end = times.cycle - times.mst;
    if (drive.tmtsy > times.gap) return wait(9, "TMTSY", drive.address, `of drive ${drive.address} after the MDT`, end - drive.tmtsy, end);
    return wait(9, "gap", 0, "after the MDT", end - times.gap, end);
}

function t3Wait(times, t2) {
    const drive = times.most("tmtsg"), end = t2 + times.mdt;
    return wait(7, "TMTSG", drive.address, `of drive ${drive.address} after the MDT`, end, end + drive.tmtsg);
}

function t4Wait(times) {
    const drive = times.most("t4min");
    return wait(10, "T4min", drive.address, `of drive ${drive.address} before the cycle's end`, times.cycle - drive.t4min, times.cycle);
}

/** The wait of the least rule that, rounded up to a microsecond, is this start. */
function holder(waits, start) {
    return waits.find((it) => Math.ceil(it.end) === start) ?? null;
}

function holds(wait) {
    return wait ? `rule ${wait.rule}: ${wait.name} ${plain(wait.end - wait.begin)} µs ${wait.of}` : "";
}

/** A plan as rows: what is sent or happens, its drive or 0, from when to when, what it waits for, and which wait holds it. */
function planRows(times, plan) {
    const starts = new Map(times.order.map((address) => [address, plan.slots.get(address).t1]));
    const rows = times.order.map((address, place) => {
        const waits = atWaits(times, starts, place), start = starts.get(address);
        return {kind: "at", name: `AT ${address}`, label: `T1 ${start}`, drive: address, start, end: start + times.at(address), waits, held: holder(waits, start)};
    });
    const waits = mdtWaits(times, starts), held = holder(waits, plan.t2);
    rows.push({kind: "mdt", name: "MDT", label: `T2 ${plan.t2}`, drive: 0, start: plan.t2, end: plan.t2 + times.mdt, waits: waits.filter((it) => it === held || it.rule === 5), held});
    for (const [kind, name, start, it] of [["t3", "T3", plan.t3, t3Wait(times, plan.t2)], ["t4", "T4", plan.t4, t4Wait(times)]])
        rows.push({kind, name, label: `${name} ${start}`, drive: 0, start, end: start, waits: [it], held: it});
    const last = lastWait(times), next = times.cycle - times.mst;
    rows.push({kind: "mst", name: "next MST", label: `${plain(next)}`, drive: 0, start: next, end: times.cycle, waits: [last], held: last});
    return rows;
}

/** What the answer of `plan` says: a plan, or a chain. */
function readPlan(answer) {
    const lines = answer.trim().split("\n").map((line) => line.split(" "));
    if (lines[0][0] === "plan") {
        const [, , t2, , t3, , t4, , mdt] = lines[0].map(Number), slots = new Map();
        for (const [, address, , t1, , position] of lines.slice(1)) slots.set(Number(address), {t1: Number(t1), position: Number(position)});
        return {t2, t3, t4, mdt, slots, links: null};
    }
    const links = lines.slice(1).map((words) => {
        const [, rule, , drive, , at, , bound] = words.map(Number);
        return {rule, drive, at, bound: words[6] === "bound" ? bound : null};
    });
    return {links};
}

/** A chain as steps: the place of the link before, what is added to it, and the place that it comes to, all in microseconds. */
function chainSteps(times, links) {
    let begin = 0, before = 0;
    return links.map((link) => {
        const drive = times.drives.get(link.drive), end = link.at / times.rate, from = begin;
        const own = (name) => ({name, key: KEY_OF[name] ?? "gap", drive: KEY_OF[name] ? link.drive : 0, length: KEY_OF[name] ? drive[KEY_OF[name]] : times.gap});
        const at = {name: `AT of drive ${before}`, key: "at", drive: before, length: before ? times.at(before) : 0};
        const mdt = {name: "MDT", key: "mdt", drive: 0, length: times.mdt};
        const isLong = link.drive && drive.tmtsy > times.gap;
        const parts = {1: () => [own("T1min")], 2: () => [own("gap")], 3: () => [at, own("gap")], 4: () => [at, own("TATAT")],
                       5: () => [at, own("gap")], 6: () => [at, own("TATMT")], 7: () => [mdt, own("TMTSG")], 8: () => [],
                       9: () => [mdt, own(isLong ? "TMTSY" : "gap")], 10: () => [own("T4min")]}[link.rule]();
        begin = end;
        before = link.drive;
        return {...link, from, parts, end, bound: link.bound === null ? null : link.bound / times.rate};
    });
}

if (typeof module !== "undefined") module.exports = {Times, planRows, readPlan, chainSteps, holds, lastWait};
