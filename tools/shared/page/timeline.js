// The timeline: rows over the cycles, drawn by pixel, so that the time it takes doesn't grow with the run.

const MARKS = {fall: 0, stop: 0, plan: 0, complete: 1, refused: 1, broken: 1};
const KINDS = {
    fall: "fall", stop: "stop", plan: "plan made", complete: "complete", refused: "refused", broken: "broken",
};
// The shapes of the marks, as corners about their middle.
const SHAPES = {
    fall: [[-6, -5], [6, -5], [0, 6]],
    stop: [[-5, -5], [5, -5], [5, 5], [-5, 5]],
    plan: [[0, -6], [6, 0], [0, 6], [-6, 0]],
    complete: Array.from({length: 12}, (_, turn) => [5 * Math.cos(turn * Math.PI / 6), 5 * Math.sin(turn * Math.PI / 6)]),
    refused: [[-5, -3], [-3, -5], [0, -2], [3, -5], [5, -3], [2, 0], [5, 3], [3, 5], [0, 2], [-3, 5], [-5, 3], [-2, 0]],
    broken: [[-6, -2.5], [6, -2.5], [6, 2.5], [-6, 2.5]],
};
const STEPS = Array.from({length: 24}, (_, place) => [1, 2, 5][place % 3] * 10 ** Math.floor(place / 3));
const AXIS = 34, MARK_ROW = 19, MASTER = 18, GAP = 3;
const FONT = 'system-ui, "DejaVu Sans", Verdana, Arial, sans-serif';

/** An event in words. */
function eventWords(event) {
    return `${KINDS[event.kind]}: ${event.text}`;
}

/** The colours of the page by name, as they are now. */
function colours() {
    const probe = document.createElement("span");
    document.body.append(probe);
    const found = new Proxy({}, {get: (known, name) => {
        if (!(name in known)) {
            probe.style.color = `var(--${name})`;
            known[name] = getComputedStyle(probe).color;
        }
        return known[name];
    }});
    return {found, end: () => probe.remove()};
}

class Timeline {
    constructor(canvas, run, choose, point) {
        Object.assign(this, {canvas, run, choose, point});
        this.from = run.first;
        this.to = run.last + 1;
        this.cycle = run.first;
        this.marks = [];
        this.pointers = new Map();
        this.byKind = Object.fromEntries(Object.keys(MARKS).map((kind) => [kind, run.events.filter((it) => it.kind === kind)]));
        this.lost = this.lostByRow();
        this.listen();
    }

    /** The cycles in which a telegram wasn't received: those of the master's MST and MDT, and of each drive's AT. */
    lostByRow() {
        const rows = new Map([[0, []]]);
        for (const drive of this.run.drives) rows.set(drive.address, []);
        for (const [cycle, kind, drive] of this.run.meta.lost) rows.get(kind === MST ? 0 : drive)?.push(cycle);
        return rows;
    }

    get span() {
        return this.to - this.from;
    }

    x(cycle) {
        return this.left + (cycle - this.from) * this.width / this.span;
    }

    cycleAt(x) {
        return this.from + (x - this.left) * this.span / this.width;
    }

    /** Shows a part of the run, at least one cycle of it. */
    show(from, to) {
        const run = this.run, span = Math.min(Math.max(to - from, 1), run.cycles);
        this.from = Math.min(Math.max((from + to - span) / 2, run.first), run.last + 1 - span);
        this.to = this.from + span;
        this.redraw();
    }

    zoom(factor, about = this.cycle + 0.5) {
        const span = Math.min(Math.max(this.span * factor, 1), this.run.cycles);
        const part = Math.min(Math.max((about - this.from) / this.span, 0), 1);
        this.show(about - part * span, about + (1 - part) * span);
    }

    move(cycles) {
        const span = this.span, from = Math.min(Math.max(this.from + cycles, this.run.first), this.run.last + 1 - span);
        this.show(from, from + span);
    }

    /** Chooses a cycle, and moves so that it is to be seen. */
    set(cycle) {
        this.cycle = cycle;
        if (cycle < this.from || cycle + 1 > this.to) this.move(cycle + 0.5 - (this.from + this.to) / 2); else this.redraw();
    }

    redraw() {
        if (this.waits) return;
        this.waits = true;
        requestAnimationFrame(() => {
            this.waits = false;
            this.draw();
        });
    }

    layout() {
        const box = this.canvas.getBoundingClientRect(), drives = this.run.drives.length;
        this.total = box.width || 600;
        this.left = this.total < 500 ? 62 : 84;
        this.width = Math.max(this.total - this.left - 6, 50);
        this.row = drives <= 12 ? 18 : Math.max(6, Math.floor(300 / drives));
        this.top = AXIS + 2 * MARK_ROW;
        this.bottom = this.top + MASTER + GAP + drives * this.row;
        const height = this.bottom + 4, scale = window.devicePixelRatio || 1;
        this.canvas.style.height = `${height}px`;
        this.canvas.width = Math.round(this.total * scale);
        this.canvas.height = Math.round(height * scale);
        this.pen = this.canvas.getContext("2d");
        this.pen.setTransform(scale, 0, 0, scale, 0, 0);
    }

    draw() {
        const began = performance.now();
        this.layout();
        const {found, end} = colours();
        this.colour = found;
        this.pen.fillStyle = found.paper;
        this.pen.fillRect(0, 0, this.total, this.bottom + 4);
        this.drawAxis();
        this.drawBand(this.run.meta.master, this.top, MASTER - 2);
        this.drawCycles(this.lost.get(0), this.top, 4, found.lost);
        this.run.drives.forEach((drive, place) => this.drawDrive(drive, this.rowTop(place)));
        this.drawLabels();
        this.drawMarks();
        this.drawChosen();
        end();
        this.canvas.dataset.milliseconds = (performance.now() - began).toFixed(1);
    }

    rowTop(place) {
        return this.top + MASTER + GAP + place * this.row;
    }

    drawDrive(drive, top) {
        const height = this.row - (this.row > 8 ? 3 : 1), mark = Math.max(2, Math.floor(height / 3));
        this.drawBand(drive.phases, top, height);
        this.drawCycles(drive.missing, top + height - mark, mark, this.colour.missing);
        this.drawCycles(this.lost.get(drive.address), top, mark, this.colour.lost);
    }

    text(words, x, y, size, colour, align = "left", weight = "") {
        const pen = this.pen;
        pen.font = `${weight} ${size}px ${FONT}`;
        pen.fillStyle = colour;
        pen.textAlign = align;
        pen.textBaseline = "middle";
        pen.fillText(words, x, y);
    }

    drawLabels() {
        const {ink, muted} = this.colour, narrow = this.left < 70;
        this.text("cycle", this.left - 8, 9, 11, muted, "right");
        this.text("time", this.left - 8, 24, 11, muted, "right");
        this.text(narrow ? "falls" : "falls, stops", this.left - 8, AXIS + MARK_ROW / 2, 11, ink, "right");
        this.text("requests", this.left - 8, AXIS + 1.5 * MARK_ROW, 11, ink, "right");
        this.text("master", this.left - 8, this.top + MASTER / 2 - 1, 11, ink, "right");
        const each = Math.ceil(14 / this.row);
        this.run.drives.forEach((drive, place) => {
            if (place % each === 0)
                this.text(`drive ${drive.address}`, this.left - 8, this.rowTop(place) + this.row / 2 - 1, 11, ink, "right");
        });
    }

    drawAxis() {
        const {muted, line, edge} = this.colour, pen = this.pen;
        const step = STEPS.find((it) => it * this.width / this.span >= 84) || STEPS[STEPS.length - 1];
        const beyond = this.run.last + 1;
        for (let cycle = Math.ceil(this.from / step) * step; cycle < Math.min(this.to + 0.001, beyond); cycle += step) {
            const x = this.x(cycle);
            pen.fillStyle = line;
            pen.fillRect(x, AXIS - 4, 1, this.bottom - AXIS + 4);
            if (x + 40 > this.left + this.width) continue;
            this.text(String(cycle), x + 2, 9, 11, this.colour.ink);
            this.text(milliseconds(this.run.time(cycle)), x + 2, 24, 11, muted);
        }
        pen.fillStyle = edge;
        pen.fillRect(this.left, AXIS - 1, this.width, 1);
    }

    /** The phases of a station. Of several in one pixel the lowest is drawn. */
    drawBand(changes, top, height) {
        const pen = this.pen, {colour} = this, right = this.left + this.width;
        let place = Math.max(firstFrom(changes, this.from, (it) => it[0]) - 1, 0), pixel = -1, lowest = 9;
        for (; place < changes.length && changes[place][0] < this.to; place++) {
            const [cycle, phase] = changes[place];
            const first = Math.max(this.x(cycle), this.left);
            const last = Math.min(this.x(place + 1 < changes.length ? changes[place + 1][0] : this.run.last + 1), right);
            if (last - first < 1) {
                if (Math.floor(first) !== pixel) [pixel, lowest] = [Math.floor(first), 9];
                if (phase >= lowest) continue;
                lowest = phase;
                pen.fillStyle = colour[`phase${phase}`];
                pen.fillRect(pixel, top, 1, height);
                continue;
            }
            pen.fillStyle = colour[`phase${phase}`];
            pen.fillRect(first, top, last - first, height);
            const words = last - first > 60 ? `phase ${phase}` : String(phase);
            if (last - first > 16 && height > 11)
                this.text(words, (first + last) / 2, top + height / 2 + 0.5, 11, colour["on-phase"], "center");
        }
    }

    /** Cycles of an ascending list, each as wide as it is, or as one pixel where several are in one. */
    drawCycles(list, top, height, colour) {
        if (!list.length) return;
        const pen = this.pen, wide = Math.max(this.width / this.span, 3);
        pen.fillStyle = colour;
        for (let place = firstFrom(list, Math.floor(this.from)); place < list.length && list[place] < this.to;) {
            const x = Math.max(this.x(list[place]), this.left);
            pen.fillRect(x, top, Math.min(this.x(list[place]) + wide, this.left + this.width) - x, height);
            place = this.span > this.width ? Math.max(firstFrom(list, this.cycleAt(x + 1)), place + 1) : place + 1;
        }
    }

    /** The marks of the events. Those that would lie over one another are one mark. */
    drawMarks() {
        this.marks = [];
        for (const [kind, events] of Object.entries(this.byKind)) {
            const y = AXIS + (MARKS[kind] + 0.5) * MARK_ROW;
            let place = firstFrom(events, Math.floor(this.from), (it) => it.cycle);
            while (place < events.length && events[place].cycle < this.to) {
                const {cycle, drive} = events[place], x = Math.min(Math.max(this.x(cycle + 0.5), this.left), this.left + this.width);
                const next = Math.max(firstFrom(events, this.cycleAt(x + 7) - 0.5, (it) => it.cycle), place + 1);
                this.marks.push({x, y, kind, cycle, drive});
                place = next;
            }
        }
        for (const mark of this.marks) this.drawShape(this.pen, mark.kind, mark.x, mark.y);
    }

    drawShape(pen, kind, x, y) {
        pen.beginPath();
        SHAPES[kind].forEach(([right, down], place) => place ? pen.lineTo(x + right, y + down) : pen.moveTo(x + right, y + down));
        pen.closePath();
        pen.fillStyle = this.colour[kind];
        pen.fill();
    }

    drawChosen() {
        const pen = this.pen, {colour} = this;
        if (this.cycle + 1 <= this.from || this.cycle >= this.to) return;
        const first = Math.max(this.x(this.cycle), this.left), last = Math.min(this.x(this.cycle + 1), this.left + this.width);
        pen.strokeStyle = colour.accent;
        pen.lineWidth = 2;
        pen.strokeRect(first - 1, AXIS - 6, Math.max(last - first, 1) + 2, this.bottom - AXIS + 7);
    }

    /** The cycle of a place, and a drive or 0: those of the mark there, otherwise the cycle of its place on the axis. */
    goalOf(x, y) {
        const near = this.marks.filter((mark) => Math.abs(mark.x - x) <= 8 && Math.abs(mark.y - y) <= MARK_ROW / 2)
            .sort((one, other) => Math.abs(one.x - x) - Math.abs(other.x - x))[0];
        return near || {cycle: this.bounded(Math.floor(this.cycleAt(x))), drive: 0};
    }

    bounded(cycle) {
        return Math.min(Math.max(cycle, this.run.first), this.run.last);
    }

    /** What is at a place, in words. */
    words(x, y) {
        if (x < this.left) return "";
        const run = this.run, {cycle} = this.goalOf(x, y);
        const parts = [`cycle ${cycle}, ${milliseconds(run.time(cycle))}, phase ${run.phase(cycle)}`];
        const drive = run.drives[Math.floor((y - this.rowTop(0)) / this.row)];
        if (drive && y >= this.rowTop(0)) {
            const phase = run.phaseOfDrive(drive, cycle);
            const where = phase === null ? "" : ` is in phase ${phase}`;
            parts.push(`drive ${drive.address}${where}${run.isMissing(drive, cycle) ? ", no AT" : ""}`);
        }
        return [...parts, ...run.eventsOf(cycle).map(eventWords)].join("; ");
    }

    listen() {
        const canvas = this.canvas;
        const at = (event) => [event.offsetX, event.offsetY];
        canvas.addEventListener("wheel", (event) => {
            event.preventDefault();
            const by = event.deltaMode ? 20 : 1;
            if (event.shiftKey || Math.abs(event.deltaX) > Math.abs(event.deltaY))
                this.move((event.deltaX || event.deltaY) * by * this.span / this.width);
            else this.zoom(Math.exp(event.deltaY * by * 0.002), this.cycleAt(event.offsetX));
        }, {passive: false});
        canvas.addEventListener("pointerdown", (event) => {
            canvas.setPointerCapture(event.pointerId);
            this.pointers.set(event.pointerId, at(event));
            if (this.pointers.size === 1) this.begin = {x: event.offsetX, from: this.from, moved: false}; else this.beginPinch();
        });
        canvas.addEventListener("pointermove", (event) => {
            this.point(this.words(...at(event)));
            if (!this.pointers.has(event.pointerId)) return;
            this.pointers.set(event.pointerId, at(event));
            if (this.pointers.size === 2) this.pinch(); else this.drag(event.offsetX);
        });
        canvas.addEventListener("pointerup", (event) => {
            const isClick = this.pointers.size === 1 && this.begin && !this.begin.moved;
            this.pointers.delete(event.pointerId);
            if (isClick) {
                const {cycle, drive} = this.goalOf(...at(event));
                this.choose(cycle, drive);
            }
            this.begin = null;
        });
        canvas.addEventListener("pointercancel", (event) => {
            this.pointers.delete(event.pointerId);
            this.begin = null;
        });
        canvas.addEventListener("pointerleave", () => this.point(""));
    }

    drag(x) {
        const begin = this.begin;
        if (!begin) return;
        begin.moved ||= Math.abs(x - begin.x) > 4;
        if (begin.moved) {
            const from = begin.from + (begin.x - x) * this.span / this.width, span = this.span;
            const first = Math.min(Math.max(from, this.run.first), this.run.last + 1 - span);
            this.show(first, first + span);
        }
    }

    /** Two fingers: the cycles that were below them when they came stay below them. */
    beginPinch() {
        this.begin = null;
        const [one, other] = [...this.pointers.values()].map(([x]) => x);
        this.pinched = [this.cycleAt(one), this.cycleAt(other)];
    }

    pinch() {
        const [one, other] = [...this.pointers.values()].map(([x]) => x), [first, second] = this.pinched;
        if (Math.abs(one - other) < 10 || first === second) return;
        const each = Math.abs((second - first) / (other - one));
        const middle = (first + second) / 2, from = middle - ((one + other) / 2 - this.left) * each;
        this.show(from, from + each * this.width);
    }
}
