// The tables below the cycle: the service channel of a drive, the events, and the declared times.

const WINDOW = 160;

/** A long table of which the rows about one place are shown. */
class Rows {
    constructor(place, heads, choose) {
        Object.assign(this, {place, heads, choose});
        this.from = this.to = 0;
    }

    /** Has other rows: how many, and what makes one. */
    fill(count, make) {
        this.count = count;
        this.make = make;
        this.body = null;
    }

    /** Shows the rows about one place, and marks those of a cycle. */
    show(current, cycle) {
        const isNear = (this.from === 0 || current - 30 >= this.from) && (this.to === this.count || current + 30 < this.to);
        if (!isNear || !this.body) this.draw(current);
        const rows = [...this.body.rows];
        rows.forEach((row, number) => {
            row.classList.toggle("chosen", this.cycles[number] === cycle);
            row.classList.toggle("far", Math.abs(number + this.from - current) > 25);
        });
        const first = rows[this.cycles.indexOf(cycle)] || rows[current - this.from];
        this.place.scrollTop = first ? first.offsetTop - this.place.clientHeight / 3 : 0;
    }

    draw(current) {
        this.from = Math.max(Math.min(current - WINDOW / 2, this.count - WINDOW), 0);
        this.to = Math.min(this.from + WINDOW, this.count);
        const heads = this.heads.map(([words, kind]) => element("th", {scope: "col", class: kind}, words));
        this.body = element("tbody");
        this.cycles = [];
        for (let number = this.from; number < this.to; number++) {
            const {cycle, drive, cells} = this.make(number);
            this.cycles.push(cycle);
            this.body.append(element("tr", {class: "link", onclick: () => this.choose(cycle, drive)}, ...cells));
        }
        const parts = [element("thead", {}, element("tr", {}, ...heads)), this.body];
        this.place.replaceChildren(element("table", {}, ...parts));
        if (!this.count) this.place.append(element("p", {class: "muted"}, "none"));
    }
}

function cell(words, kind = "", span = 1) {
    return element("td", {...(kind ? {class: kind} : {}), ...(span > 1 ? {colspan: span} : {})}, words);
}

function cycleCell(cycle, choose, drive = 0) {
    const button = element("button", {"aria-label": `Show cycle ${cycle}`}, String(cycle));
    button.addEventListener("click", (event) => {
        event.stopPropagation();
        choose(cycle, drive);
    });
    return element("td", {class: "number"}, button);
}

function channelRow(run, drive, number, choose) {
    const row = run.row(drive, number), cycle = cycleCell(row.cycle, choose), phase = cell(String(run.phase(row.cycle)), "number");
    if (row.kind === IDLE) {
        const words = row.last > row.cycle ? `idle up to cycle ${row.last}` : "idle";
        return {cycle: row.cycle, cells: [cycle, phase, cell(words, "muted", 4)]};
    }
    if (row.kind === EVENT) return {cycle: row.cycle, cells: [cycle, phase, cell(row.text, "", 4)]};
    const isLost = run.lost(row.cycle).some((it) => it.drive === drive.address);
    return {cycle: row.cycle, cells: [cycle, phase, cell(row.ahs, "number"), cell(withNames(run, row.answer)), cell(row.mhs, "number"),
                                      cell(withNames(run, row.step), isLost ? "lost" : "")]};
}

function icon(kind) {
    const svg = shape("svg", {width: 14, height: 14, viewBox: "-7 -7 14 14", "aria-hidden": "true"});
    const points = SHAPES[kind].map((point) => point.map((it) => it.toFixed(1)).join(",")).join(" ");
    svg.append(shape("polygon", {points, fill: `var(--${kind})`}));
    return svg;
}

function eventRow(run, number, choose) {
    const event = run.events[number];
    const kind = element("td", {class: `kind ${event.kind}`}, icon(event.kind), ` ${KINDS[event.kind]}`);
    const words = cell(withNames(run, event.text), "words");
    for (const more of event.more) words.append(element("br"), more);
    const time = cell(milliseconds(run.time(event.cycle)), "time");
    return {cycle: event.cycle, drive: event.drive, cells: [cycleCell(event.cycle, choose, event.drive), time, kind, words]};
}

function legend(run, place) {
    const box = (attributes) => {
        const svg = shape("svg", {width: 18, height: 12, viewBox: "0 0 18 12", "aria-hidden": "true"});
        svg.append(shape("rect", attributes));
        return svg;
    };
    const items = PHASES.map((words, phase) => [box({width: 18, height: 12, fill: `var(--phase${phase})`}), `phase ${phase}: ${words}`]);
    for (const [kind, words] of Object.entries(KINDS)) items.push([icon(kind), MARKS[kind] ? `request ${words}` : words]);
    items.push([box({y: 7, width: 18, height: 5, fill: "var(--missing)"}), "no AT in a cycle of phase 3 or 4"]);
    items.push([box({width: 18, height: 5, fill: "var(--lost)"}), "sent and not received, as a later line shows"]);
    place.replaceChildren(...items.map(([drawn, words]) => element("li", {}, drawn, words)));
}

/** The times that each drive declares, and which of them hold a slot of the plan. */
function planTable(run, plan) {
    const times = ["t1min", "tatmt", "t4min", "tatat", "tmtsy", "tmtsg"], names = ["T1min", "TATMT", "T4min", "TATAT", "TMTSY", "TMTSG"];
    const declared = run.meta.document?.declared;
    const heads = ["drive", "slave", ...names, ...(declared ? ["busy", "command"] : []), "slot", "held by"];
    const holding = new Set(plan.rows.flatMap((row) => row.waits.filter((wait) => wait[4]).map(([name, of]) => {
        const named = /drive (\d+)/.exec(of), own = name === "TATAT" || name === "T1min" ? row.drive : named && Number(named[1]);
        return `${name} ${own}`;
    })));
    const body = run.drives.map((drive) => {
        const row = plan.rows.find((it) => it.drive === drive.address);
        const cells = times.map((time, place) => {
            const holds = holding.has(`${names[place]} ${drive.address}`);
            return cell((holds ? "● " : "") + drive[time], holds ? "number holds" : "number");
        });
        const more = declared ? ["busy", "command"].map((key) => cell(String(declared[drive.address][key]), "number")) : [];
        return element("tr", {}, cell(String(drive.address), "number"), cell(String(drive.slave), "number"), ...cells, ...more,
                       cell(`T1 ${row.start}`), cell(row.held));
    });
    for (const row of plan.rows.filter((it) => !it.drive)) {
        const name = {MDT: `MDT, T2 ${row.start}`, "next MST": `next MST, ${plain(row.start)}`}[row.name] || `${row.name} ${row.start}`;
        body.push(element("tr", {}, cell("", "", 8 + (declared ? 2 : 0)), cell(name), cell(row.held)));
    }
    const head = heads.map((words, place) => element("th", {scope: "col", class: place < heads.length - 2 ? "number" : ""}, words));
    return element("table", {}, element("thead", {}, element("tr", {}, ...head)), element("tbody", {}, ...body));
}
