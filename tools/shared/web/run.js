// The run: made in slices by its own worker. Shown are the phases and what isn't a telegram; the whole trace can be saved.

const SHOWN = 400;
const PHASE_WORDS = ["the ring closes", "drives are identified", "times are read and written", "all telegrams, checked", "operation"];

/** What a message means, with its cycle and its drive in place of the letters. */
function filled(text, cycle, drive) {
    return (text ?? "").replaceAll(/\bC - 1\b/g, String(Number(cycle) - 1)).replaceAll(/\bC\b/g, cycle).replaceAll(/(?<!^)\bA\b/g, drive ?? "A").replace(/\bdrive A\b/, `drive ${drive}`);
}

/** A line of a trace that isn't a telegram, in words. */
function eventWords(words, line) {
    const [word, cycle, ...rest] = line.split(" "), at = rest[1];
    if (word === "p") return `drive ${rest[0]} is in phase ${at}, ${PHASE_WORDS[at]}`;
    if (word === "plan") return `the plan is made: T2 ${rest[1]}, T3 ${rest[3]}, T4 ${rest[5]} µs, an MDT of ${rest[7]} bytes`;
    if (word === "slot") return `slot of drive ${rest[0]}: T1 ${rest[2]} µs, position ${rest[4]}`;
    if (word === "r") return `request ${rest[0]} is ${rest[1]}${rest[2] && rest[2] !== "-" ? `: ${rest[2]}` : ""}`;
    if (word === "fall") return `fall to phase 0: ${filled(words.falls[rest[0]], cycle, rest[1])}`;
    if (word === "stop") return `stop of the start-up: ${filled(words.stops[rest[0]], cycle, rest[1])}${rest.length > 2 ? ` (${rest.slice(2).join(" ")})` : ""}`;
    if (word === "rule") return `rule ${rest[0]}, drive ${rest[2]}: ${rest.slice(3).join(" ")}`;
    return [cycle, ...rest].join(" ");
}

/** Addresses as words, those in a row as a span: 1 to 12, 14. */
function spanWords(addresses) {
    const spans = [];
    for (const address of addresses.map(Number)) {
        const last = spans.at(-1);
        if (last && last[1] + 1 === address) last[1] = address; else spans.push([address, address]);
    }
    return spans.map(([first, last]) => (last > first + 1 ? `${first} to ${last}` : last > first ? `${first}, ${last}` : String(first))).join(", ");
}

/** The same change of phase of several drives in a cycle is one entry. */
function foldEvents(lines) {
    const found = [];
    for (const line of lines) {
        const [word, cycle, drive, phase] = line.split(" "), last = found.at(-1);
        if (word === "p" && last?.word === "p" && last.cycle === cycle && last.phase === phase) last.drives.push(drive);
        else if (word === "slot") continue;
        else found.push({word, cycle, line, phase, drives: [drive]});
    }
    return found;
}

class RunView {
    constructor(parts, words, program) {
        Object.assign(this, {parts, words, program, took: 0, number: 0});
        parts.run.addEventListener("click", () => this.start());
        parts.stop.addEventListener("click", () => this.stop());
    }

    /** Has another document; what runs is stopped. */
    set(document, canRun) {
        if (this.running) this.stop();
        this.document = document;
        this.canRun = canRun;
        this.parts.run.disabled = !canRun;
        this.parts.part.classList.toggle("stale", true);
    }

    stop() {
        this.number += 1;
        this.running = false;
        this.program.runs.worker.postMessage({kind: "stop"});
        this.parts.stop.disabled = true;
        if (this.canRun) this.parts.run.disabled = false;
    }

    async start() {
        if (!this.canRun) return;
        if (this.running) this.stop();
        const own = this.number += 1, {parts} = this, document = this.document;
        this.running = true;
        parts.stop.disabled = false;
        this.phases = [];
        this.lines = [];
        this.cycles = 0;
        this.end = "";
        try {
            const answer = await this.program.runs.ask("run", {document, keep: false}, (part) => { if (own === this.number) this.take(part); });
            if (own !== this.number) return;
            this.take(answer);
            this.end = answer.end ?? "";
            this.took = answer.took;
        } catch (fault) {
            if (own === this.number) this.fail(fault);
        }
        if (own !== this.number) return;
        this.running = false;
        parts.stop.disabled = true;
        this.draw();
    }

    fail(fault) {
        this.parts.summary.textContent = `The run ended without an answer: ${fault.message}. The program was started again, and your text is kept.`;
    }

    take({cycles, phases, events}) {
        if (cycles === undefined) return;
        this.cycles = cycles;
        this.phases.push(...phases);
        for (const line of events.split("\n")) if (line) this.lines.push(line);
        this.draw();
    }

    totals() {
        const found = /^end (\d+) phase (\d) complete (\d+) refused (\d+) broken (\d+) falls (\d+) unseen (\d+)/.exec(this.end);
        return found && {cycles: Number(found[1]), phase: Number(found[2]), complete: Number(found[3]), refused: Number(found[4]), broken: Number(found[5]), falls: Number(found[6]), unseen: Number(found[7])};
    }

    draw() {
        const {parts} = this, totals = this.totals(), events = foldEvents(this.lines);
        parts.part.classList.toggle("stale", false);
        const whole = Number(/^\s*cycles\s*=\s*(\d+)/m.exec(this.document)?.[1] ?? this.cycles);
        const operation = this.phases.find(([, phase]) => phase === 4)?.[0];
        parts.summary.textContent = totals
            ? `${plural(totals.cycles, "cycle")}: ${operation === undefined ? "phase 4 wasn't reached" : `phase 4 in cycle ${operation}`}, ${plural(totals.falls, "fall")}, ends in phase ${totals.phase}. ` +
              `Requests: ${totals.complete} complete, ${totals.refused} refused, ${totals.broken} broken. ${totals.unseen ? `${totals.unseen} damaged telegrams passed the check sequence.` : ""}`
            : `running: cycle ${this.cycles} of ${whole}`;
        parts.part.dataset.cycles = this.cycles;
        parts.picture.replaceChildren(this.picture(Math.max(this.cycles, 1)));
        const rows = events.slice(0, SHOWN).map((it) => element("tr", {class: it.word}, element("td", {class: "number"}, it.cycle),
            element("td", {}, it.word === "p" && it.drives.length > 1 ? `drives ${spanWords(it.drives)} are in phase ${it.phase}, ${PHASE_WORDS[it.phase]}` : eventWords(this.words, it.line))));
        parts.events.replaceChildren(element("tbody", {}, ...rows));
        parts.more.textContent = events.length > SHOWN ? `${SHOWN} of ${events.length} events; the saved trace has all.` : "";
        parts.raw.textContent = this.lines.slice(0, 2000).join("\n") + (this.end ? `\n${this.end}` : "");
    }

    /** The phases as the height of a step, with the falls. */
    picture(cycles) {
        const x = (cycle) => ((1000 * cycle) / cycles).toFixed(2), y = (phase) => 46 - 9 * phase;
        let path = "";
        this.phases.forEach(([cycle, phase], place) => { path += `${place ? "V" : `M0 ${y(phase)} H`}${place ? `${y(phase)} H` : ""}${x(this.phases[place + 1]?.[0] ?? cycles)} `; });
        const falls = this.lines.filter((it) => it.startsWith("fall ")).map((it) => Number(it.split(" ")[1]));
        const marks = falls.slice(0, 500).map((cycle) => shape("path", {class: "fall", d: `M${x(cycle)} 2 V50`}, shape("title", {}, `fall in cycle ${cycle}`)));
        const line = shape("path", {class: "phases", d: path || "M0 46"});
        const svg = shape("svg", {viewBox: "0 0 1000 52", preserveAspectRatio: "none", role: "img", "aria-label": `phases over ${cycles} cycles, ${plural(falls.length, "fall")}`}, line, ...marks);
        const labels = element("div", {class: "axis", "aria-hidden": "true"});
        labels.replaceChildren(...axis(0, cycles, 6).children);
        return element("div", {}, element("div", {class: "phase-names", "aria-hidden": "true"}, ...[4, 3, 2, 1, 0].map((it) => element("span", {}, String(it)))), svg, labels);
    }

    /** The whole trace, as a file. */
    async trace() {
        const {trace} = await this.program.runs.ask("run", {document: this.document, keep: true});
        return trace;
    }
}
