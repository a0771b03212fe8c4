// One cycle, to scale: its telegrams, the points T3 and T4, and the declared times that hold a slot.

const LANES = {master: 30, drives: 64, waits: 97};
// Where a declared time is drawn below the telegrams; those of T3 and T4 may lie over that of the next MST.
const WAIT_LANES = {TMTSG: 12, T4min: 24};
// Beside the axis there is room for the label of T4.
const BOX = 26, LEFT = 10, RIGHT = 30;

/** The slots of one cycle, with one telegram chosen. */
class Slots {
    constructor(run, place, details, chooseDrive) {
        Object.assign(this, {run, place, details, chooseDrive});
        // Which telegram is chosen: its kind and its drive, kept from cycle to cycle.
        this.chosen = null;
    }

    /** The telegrams of a cycle, and the places of those that are missing. */
    items(cycle) {
        const run = this.run, items = run.telegrams(cycle).map((telegram) => ({...telegram, missing: false}));
        const lost = run.lost(cycle), plan = run.phase(cycle) > 2 ? run.plan(cycle) : null;
        for (const item of items)
            item.lost = lost.filter((it) => it.kind === item.kind && (it.kind !== AT || it.drive === item.drive)).map((it) => it.words);
        for (const drive of run.drives.filter((it) => run.isMissing(it, cycle))) {
            const slot = plan?.slots[drive.address], length = mostBits(1 + drive.at_length) / run.rate;
            const words = this.missingWords(drive, cycle);
            if (slot) {
                items.push({cycle, kind: AT, drive: drive.address, start: slot[0], end: slot[0] + length, missing: true,
                            lost: [], words});
            }
            if (run.phaseOfDrive(drive, cycle) > 2) items[0].lost.push(`Drive ${drive.address} didn't receive it: it sent no AT.`);
        }
        return items.sort((one, other) => one.start - other.start);
    }

    missingWords(drive, cycle) {
        const phase = this.run.phaseOfDrive(drive, cycle);
        if (phase === null) return "It received no MST, or isn't in this phase.";
        if (phase > 2) return "It received no MST in this cycle.";
        return drive.phases.some((it) => it[0] === cycle) ? `It went to phase ${phase} in this cycle.` : `It is in phase ${phase}.`;
    }

    show(cycle, drive) {
        this.cycle = cycle;
        this.drive = drive;
        this.shown = this.items(cycle);
        const wanted = this.chosen && this.shown.find((it) => it.kind === this.chosen.kind && it.drive === this.chosen.drive);
        this.item = wanted || this.shown.find((it) => it.kind === AT && it.drive === drive.address)
            || this.shown.find((it) => it.kind === MDT) || this.shown[0];
        this.draw();
        this.describe(this.item);
    }

    draw() {
        const run = this.run, length = run.cycleTime(run.phase(this.cycle));
        this.from = Math.min(...this.shown.map((it) => it.start));
        const shortest = Math.min(...this.shown.map((it) => it.end - it.start));
        const room = this.place.clientWidth || 600, span = length - this.from;
        const width = Math.min(Math.max(room, 9 * span / shortest), 6000);
        const plan = run.phase(this.cycle) > 2 ? run.plan(this.cycle) : null;
        this.scale = (width - LEFT - RIGHT) / span;
        const height = plan?.rows.length ? 150 : 118;
        const svg = shape("svg", {width, height, viewBox: `0 0 ${width} ${height}`, role: "group",
                                  "aria-label": `The telegrams of cycle ${this.cycle}, to scale in microseconds`});
        svg.append(this.backdrop(plan, length, height));
        this.drawNext(svg, length);
        for (const item of this.shown) svg.append(this.telegram(item));
        const before = this.place.contains(document.activeElement);
        this.place.replaceChildren(svg);
        if (before) this.group(this.item)?.focus();
        this.mark();
    }

    /** What is the same in many cycles: the axis and the plan. */
    backdrop(plan, length, height) {
        const key = [plan?.cycle, this.scale, this.from, length].join(" ");
        if (key !== this.backdropKey) {
            this.backdropKey = key;
            this.backdropGroup = shape("g", {});
            this.drawAxis(this.backdropGroup, length, height);
            if (plan) this.drawPlan(this.backdropGroup, plan, height);
        }
        return this.backdropGroup;
    }

    x(time) {
        return LEFT + (time - this.from) * this.scale;
    }

    drawAxis(svg, length, height) {
        const step = STEPS.find((it) => it * this.scale >= 60) || STEPS[STEPS.length - 1], base = height - 18;
        for (let time = 0; time <= length; time += step) {
            svg.append(shape("line", {class: "grid", x1: this.x(time), x2: this.x(time), y1: 18, y2: base}));
            if (this.x(time) < this.x(length) - 34 || time === length)
                svg.append(shape("text", {x: this.x(time), y: height - 5, class: "small", "text-anchor": "middle"}, String(time)));
        }
        svg.append(shape("line", {class: "axis", x1: this.x(this.from), x2: this.x(length), y1: base, y2: base}));
        if (length % step)
            svg.append(shape("text", {x: this.x(length) + 8, y: height - 5, class: "small", "text-anchor": "end"}, `${length} µs`));
    }

    /** The MST that ends the cycle. */
    drawNext(svg, length) {
        const last = this.cycle < this.run.last ? this.run.telegrams(this.cycle + 1)[0] : null;
        const bits = last ? last.bits : this.shown.find((it) => it.kind === MST).bits, start = length - bits / this.run.rate;
        const place = {x: this.x(start), y: LANES.master, width: this.x(length) - this.x(start), height: BOX};
        svg.append(shape("rect", {...place, fill: "var(--mst)", opacity: 0.35}, shape("title", {}, "the next MST")));
    }

    drawPlan(svg, plan, height) {
        for (const [name, time, words] of [["T3", plan.t3, "command values valid"], ["T4", plan.t4, "feedback captured"]]) {
            const x = this.x(time);
            const before = Math.abs(plan.t3 - plan.t4) * this.scale < 70 && (name === "T3") === (plan.t3 <= plan.t4);
            svg.append(shape("line", {class: "point", x1: x, x2: x, y1: 14, y2: height - 18},
                             shape("title", {}, `${name}, ${words}: ${time} microseconds`)));
            const anchor = {x: x + (before ? -4 : 4), y: 13, "text-anchor": before ? "end" : "start"};
            svg.append(shape("text", {...anchor, "data-point": name, "data-time": time}, `${name} ${time}`));
        }
        for (const row of plan.rows) for (const [name, of, begin, end, holds] of row.waits) {
            const whole = row.drive ? `AT of drive ${row.drive}` : row.name, words = `${whole}: ${name} ${plain(end - begin)} µs ${of}`;
            const lane = LANES.waits + (WAIT_LANES[name] || 0);
            const width = Math.max((end - begin) * this.scale, 1);
            const look = holds ? {y: lane, height: 7, class: "wait holds"} : {y: lane + 8, height: 3, opacity: 0.4, class: "wait"};
            svg.append(shape("rect", {x: this.x(begin), width, fill: `var(--${name})`, ...look},
                             shape("title", {}, words + (holds ? ", which holds it" : ""))));
            const isLast = row.name !== "AT" && row.name !== "MDT";
            if (holds && isLast)
                svg.append(shape("text", {x: this.x(begin) - 4, y: lane + 7, class: "small", "text-anchor": "end"}, name));
            else if (holds && (end - begin) * this.scale > 8 * name.length)
                svg.append(shape("text", {x: this.x((begin + end) / 2), y: lane + 20, class: "small", "text-anchor": "middle"}, name));
        }
    }

    telegram(item) {
        const {run} = this, x = this.x(item.start), width = Math.max((item.end - item.start) * this.scale, 2);
        const y = item.kind === AT ? LANES.drives : LANES.master, colour = ["--mst", "--at", "--mdt"][item.kind];
        const classes = ["telegram", item.missing ? "missing" : "", item.lost.length ? "lost" : ""].filter(Boolean).join(" ");
        const group = shape("g", {class: classes, tabindex: -1, role: "button", "aria-label": this.label(item),
                                  "data-kind": TELEGRAMS[item.kind], "data-drive": item.drive});
        group.append(shape("rect", {class: "box", x, y, width, height: BOX, fill: item.missing ? "none" : `var(${colour})`}));
        const words = item.kind === AT ? [`${item.missing ? "no " : ""}AT ${item.drive}`, String(item.drive)] : [TELEGRAMS[item.kind]];
        const fitting = words.find((it) => 7 * it.length + 4 < width);
        if (fitting) group.append(shape("text", {x: x + width / 2, y: y + 17}, fitting));
        if (item.lost.length) {
            const middle = x + width / 2, top = y - 9;
            group.append(shape("path", {class: "cross", d: `M${middle - 4} ${top - 4}l8 8m0 -8l-8 8`}));
        }
        item.group = group;
        group.addEventListener("pointerenter", () => this.choose(item, false));
        group.addEventListener("click", () => {
            group.focus();
            if (item.kind === AT) this.chooseDrive(run.byAddress.get(item.drive));
        });
        group.addEventListener("focus", () => this.choose(item, true));
        group.addEventListener("keydown", (event) => this.key(event, item));
        return group;
    }

    label(item) {
        const name = telegramName(item), end = item.lost.join(" ");
        if (item.missing) return `No ${name}. ${item.words}`;
        return `${name}, ${plain(item.start)} to ${plain(item.end)} microseconds.${end ? ` Not received: ${end}` : ""}`;
    }

    group(item) {
        return item?.group;
    }

    /** The telegram beside it, by the arrow keys. */
    key(event, item) {
        const by = {ArrowLeft: -1, ArrowRight: 1}[event.key];
        if (!by || event.shiftKey || event.ctrlKey || event.altKey || event.metaKey) return;
        event.preventDefault();
        event.stopPropagation();
        const next = this.shown[this.shown.indexOf(item) + by];
        if (next) this.group(next).focus();
    }

    choose(item, keep) {
        this.item = item;
        if (keep) this.chosen = {kind: item.kind, drive: item.drive};
        this.mark();
        this.describe(item);
    }

    mark() {
        for (const item of this.shown) {
            item.group.classList.toggle("chosen", item === this.item);
            item.group.setAttribute("tabindex", item === this.item ? 0 : -1);
        }
        const {scrollLeft, clientWidth} = this.place, x = this.x(this.item.start), end = this.x(this.item.end);
        if (x < scrollLeft || end > scrollLeft + clientWidth) this.place.scrollLeft = (x + end - clientWidth) / 2;
    }

    describe(item) {
        const name = telegramName(item), long = LONG_NAMES[item.kind], parts = [];
        get("details-title").textContent = item.missing ? `No ${name}` : `${name}, ${long}`;
        if (!item.missing) parts.push(element("p", {class: "muted"}, placeWords(item)));
        if (item.missing) {
            const slot = `Its slot: ${plain(item.start)} to ${plain(item.end)} microseconds, with the most bits that it can have.`;
            parts.push(element("p", {class: "warn"}, item.words), element("p", {}, slot));
        }
        for (const words of item.lost) parts.push(element("p", {class: "warn"}, `Sent, and not received: ${words}`));
        if (!item.missing) parts.push(this.table(fieldRows(this.run, item, this.drive)));
        this.details.replaceChildren(...parts);
    }

    table(rows) {
        const heads = ["bytes", "field", "value", "meaning"].map((words) => element("th", {scope: "col"}, words));
        const body = rows.map((row) => element("tr", row.isBit ? {class: "bit"} : {},
            element("td", {class: "code"}, row.bytes), element("td", {}, row.name), element("td", {class: "code"}, row.value),
            element("td", {}, withNames(this.run, row.words))));
        return element("table", {}, element("thead", {}, element("tr", {}, ...heads)), element("tbody", {}, ...body));
    }
}

/** A text in which each identifier number has its name after it. */
function withNames(run, text) {
    return text.replace(/[SP]-[0-7]-\d{4}/g, (idn) => run.nameOf(idn) ? `${idn} (${run.nameOf(idn)})` : idn);
}
