// What the page does: the text is the one truth; at each change it is read, planned, and shown in all parts.

const get = (id) => document.getElementById(id);
const MARGIN_WAIT = 120, RUN_WAIT = 300, QUICK_RUN = 500;

class Page {
    constructor(words) {
        this.words = words;
        this.history = new History();
        this.answer = null;
        this.margins = null;
        this.isTable = true;
        this.asked = 0;
        const act = (path, key, typed, mark) => this.change(new Edits(this.reading).set(path, key, typed), mark);
        this.ringGrid = new Grid(get("ring-grid"), "Ring", RING_KEYS, words.schema.ring, act);
        this.driveGrid = new Grid(get("drive-grid"), "Drives", DRIVE_KEYS, words.schema.drive, act);
        this.text = new RingText(get("document"), get("marks"), get("lines"), (text) => this.change(text, this.typingMark(text)));
        this.reading = new Reading("");
        this.listen();
    }

    async begin(first, note) {
        this.history = new History(first);
        this.read();
        const began = performance.now();
        try {
            this.program = await Program.load(get("module").textContent.trim(), get("worker").textContent);
        } catch (fault) {
            this.say(`The program can't run in this browser (${fault.message}): the text can still be edited and saved.`);
            get("status").textContent = "no program";
            return;
        }
        document.body.dataset.ready = Math.round(performance.now() - began);
        this.run = new RunView({run: get("run"), stop: get("stop"), part: get("run-part"), summary: get("run-summary"), picture: get("run-picture"), events: get("run-events"), more: get("run-more"), raw: get("run-raw")}, this.words, this.program);
        this.check = new CheckView({part: get("view-check"), area: get("check-area"), go: get("check-go"), open: get("check-open"), file: get("check-file"), range: get("check-range"), first: get("check-first"), last: get("check-last"), answer: get("check-answer")}, this.words, this.program);
        this.bits = new BitsView({part: get("view-bits"), line: get("bits-line"), answer: get("bits-answer")}, this.words, this.program);
        await this.plan();
        performance.measure("first plan", {start: 0});
        if (note) this.say(note);
    }

    say(words) {
        get("message").hidden = !words;
        get("message").textContent = words;
    }

    // ---- changes ----

    /** Letters typed one after another are one step of the history. */
    typingMark(text) {
        const {from, removed, added} = this.history.difference(this.history.text, text), isNext = this.typed === from;
        const isLetter = !removed && added.length === 1 && added !== "\n";
        if (!isLetter || !isNext) this.typing = isLetter ? `typing ${performance.now()}` : "";
        this.typed = from + added.length;
        return isLetter ? this.typing : "";
    }

    change(text, mark = "") {
        if (!this.history.set(text, mark)) return;
        this.changed(this.history.done.at(-1));
    }

    changed(step) {
        this.say("");
        this.read(step ? step.from + step.added.length : null);
        this.plan();
        clearTimeout(this.drafting);
        this.drafting = setTimeout(() => keepDraft(this.history.text), 300);
    }

    undo(isRedo = false) {
        this.leave();
        const step = isRedo ? this.history.redo() : this.history.undo();
        if (!step) return;
        this.typed = -1;
        this.changed(isRedo ? step : {from: step.from, added: step.removed});
    }

    leave() {
        this.ringGrid.leave(false);
        this.driveGrid.leave(false);
    }

    /** Another document in place of this one, which undo brings back. */
    replace(text, note = "") {
        this.leave();
        this.change(text.replaceAll("\r\n", "\n"));
        this.ringGrid.choose(0, 0);
        this.driveGrid.choose(0, 0);
        this.say(note || (text.includes("\r\n") ? "The ends of its lines were carriage returns and line feeds, and are line feeds now." : ""));
    }

    /** Reads the text, and shows it. The answer of the program follows. */
    read(place = null) {
        const text = this.history.text;
        this.reading = new Reading(text);
        this.text.set(text, place);
        get("undo").disabled = !this.history.done.length;
        get("redo").disabled = !this.history.undone.length;
        this.showTable();
    }

    /** What the table can't show: the text isn't TOML, or the program reads other numbers than the page. */
    lockWords() {
        const {reading, answer} = this;
        if (reading.stumble) return "The table is locked until the text is TOML again.";
        if (answer?.head && answer.text === reading.text && !this.agrees(new Times(answer.head)))
            return "The table can't read this text; plan and run still work.";
        return "";
    }

    /** Whether the numbers of the program's reading are those of the page's. */
    agrees(times) {
        const {reading} = this, drives = [...times.drives.values()], of = (path, other) => reading.value(path, "integer", other);
        const cycle = of("ring.cycle");
        return of("ring.rate") === times.rate && cycle === times.cycle && of("ring.control", cycle) === times.control && of("ring.gap", 5) === times.gap
            && reading.drives().length === drives.length && drives.every((drive, place) => {
                const path = `drive[${place}]`, address = of(`${path}.address`);
                return address === drive.address && of(`${path}.slave`, address) === drive.slave && Object.keys(DECLARED).every((key) => of(`${path}.${key}`) === drive[key]);
            });
    }

    showTable() {
        const words = this.lockWords(), isLocked = Boolean(words), {reading} = this, count = reading.drives().length;
        get("locked").hidden = !isLocked;
        get("locked").textContent = words;
        if (!reading.stumble) {
            this.ringGrid.show(reading, ["ring"], isLocked);
            this.driveGrid.show(reading, Array.from({length: count}, (_, place) => `drive[${place}]`), isLocked);
        }
        const canEdit = !isLocked && count > 0 && new Edits(reading).spans() !== null;
        for (const id of ["copy", "fill", "remove"]) get(id).disabled = !canEdit;
        get("add").disabled = isLocked || (count > 0 && !canEdit);
        get("drive-grid").hidden = count === 0;
    }

    // ---- answers ----

    async plan() {
        if (!this.program) return;
        const own = this.asked += 1, text = this.history.text;
        clearTimeout(this.later);
        clearTimeout(this.running);
        this.run.set(text, false);
        if (this.isAsking) return;
        this.isAsking = true;
        let answer;
        try {
            answer = {...await this.program.plan(text), text};
        } catch (fault) {
            if (fault.isLost) {
                this.isAsking = false;
                return void this.plan();
            }
            answer = {text, status: -1, output: "", head: "", fault: fault.message};
        }
        this.isAsking = false;
        if (own !== this.asked) {
            this.plan();
            return;
        }
        this.answer = answer;
        this.margins = null;
        this.show();
        this.follow(text, answer);
    }

    /** What follows once nothing is typed for a while: the margins, and then the run. */
    follow(text, answer) {
        if (answer.status !== 0 && answer.status !== 1) return;
        this.run.set(text, true);
        this.later = setTimeout(() => this.margin(text), MARGIN_WAIT);
        if (this.run.took < QUICK_RUN) this.running = setTimeout(() => this.run.start(), RUN_WAIT);
    }

    async margin(text) {
        try {
            const {output} = await this.program.call(["margin"], text);
            if (text !== this.history.text) return;
            this.margins = this.readMargins(output);
            const {cycle} = this.margins, shorter = cycle === 250 ? 125 : cycle === "none" || cycle === 125 ? 0 : cycle - 250;
            if (shorter) {
                const other = new Edits(new Reading(new Edits(this.reading).withCycle(shorter))), asked = other.set("ring", "control", "");
                const limit = await this.program.call(["plan"], asked);
                if (text !== this.history.text) return;
                if (limit.status === 1) this.margins.limit = {shorter, link: readPlan(limit.output).links.at(-1)};
            }
            this.show();
        } catch (fault) {
            // The margins of a text that has a plan are left out, then.
            if (!(fault instanceof NoAnswer)) throw fault;
        }
    }

    readMargins(output) {
        const drives = new Map();
        let cycle = null;
        for (const line of output.split("\n")) {
            const words = line.split(" ");
            if (words[0] === "cycle") cycle = words[1] === "none" ? "none" : Number(words[1]);
            if (words[0] === "margin") drives.set(Number(words[1]), Object.fromEntries([2, 4, 6, 8, 10, 12].map((place) => [words[place], Number(words[place + 1])])));
        }
        return {cycle, drives, output};
    }

    show() {
        const {answer} = this, isGood = answer.status === 0 || answer.status === 1;
        this.refusal = isGood ? null : readRefusal(answer.output);
        this.chain = null;
        if (isGood) this.showAnswer();
        get("plan-part").classList.toggle("hatched", !isGood);
        get("stale").hidden = isGood || !this.lastGood;
        get("plan-raw").textContent = answer.output || (answer.fault ?? "");
        get("margin-raw").textContent = this.margins?.output ?? "";
        this.showRefusal();
        this.showTable();
        this.showMarks();
        this.showStatus();
        document.body.dataset.answered = this.asked;
        document.body.dataset.margins = this.margins ? this.asked : "";
    }

    showAnswer() {
        const {answer, words} = this, times = new Times(answer.head), plan = readPlan(answer.output);
        Object.assign(this, {times, planned: plan, lastGood: answer});
        if (this.drawn !== answer) {
            this.drawn = answer;
            if (plan.links) {
                const drawn = drawChain(times, plan.links, words, (drive, key) => this.goTo(drive, key));
                this.steps = drawn.steps;
                get("plan-picture").replaceChildren(...drawn.parts);
            } else {
                const drawn = drawPlan(times, plan, (row) => this.goTo(row.held?.drive || row.drive, KEY_OF[row.held?.name] ?? "gap"));
                this.rows = drawn.rows;
                get("plan-picture").replaceChildren(...drawn.parts);
            }
        }
        this.chain = plan.links ? this.steps : null;
        this.showPlanWords();
    }

    showPlanWords() {
        const {margins, times, planned: plan} = this, tools = [];
        const cycle = margins?.cycle, shortest = cycle === "none" ? "No cycle time fits." : cycle ? `Shortest cycle ${cycle} µs.` : "";
        if (plan.links) {
            const last = this.steps.at(-1), over = plain(last.end - last.bound);
            get("plan-title").textContent = `No plan fits: ${over} µs too long`;
            get("plan-words").textContent = "";
            if (typeof cycle === "number") tools.push(element("button", {onclick: () => this.change(new Edits(this.reading).withCycle(cycle))}, `Cycle ${cycle} fits: set it`));
            if (cycle === "none") get("plan-words").textContent = "No plan fits in any cycle time.";
        } else {
            const free = freeTime(times, plan), limit = margins?.limit;
            get("plan-title").textContent = "Plan";
            const link = limit?.link, why = link ? ` ${limit.shorter} µs fails by rule ${link.rule}${link.drive ? ` of drive ${link.drive}` : ""}.` : "";
            get("plan-words").textContent = `T2 ${plan.t2}, T3 ${plan.t3}, T4 ${plan.t4} µs, MDT ${plan.mdt} bytes. Free: ${plain(free)} µs. ${shortest}${why}`;
        }
        get("plan-tools").replaceChildren(...tools);
    }

    showStatus() {
        const {answer, margins} = this;
        let words;
        if (answer.status === 0) words = `A plan fits: ${plain(freeTime(this.times, this.planned))} µs free${margins?.cycle ? `, shortest cycle ${margins.cycle} µs` : ""}`;
        else if (answer.status === 1) words = `No plan fits: ${plain(this.steps.at(-1).end - this.steps.at(-1).bound)} µs too long${margins?.cycle ? `; cycle ${margins.cycle}${margins.cycle === "none" ? " fits" : " µs fits"}` : ""}`;
        else if (answer.status === 7) words = "Too long: a document has at most 1,048,576 bytes";
        else if (this.refusal) words = `Not accepted: ${refusalWords(this.reading, this.refusal, this.words).what}`;
        else words = `No answer (${answer.fault ?? STATUS_WORDS[answer.status] ?? "memory"}). The program was started again, and your text is kept`;
        if (get("status").textContent !== words) get("status").textContent = words;
    }

    showRefusal() {
        const {refusal, reading} = this, part = get("refusal");
        part.hidden = !refusal;
        if (!refusal) return;
        const isEmpty = refusal.line === "refused 2 missing ring" && !reading.text.trim();
        const {what, allowed, hint} = refusalWords(reading, refusal, this.words), tools = element("div", {class: "tools"});
        if (isEmpty) {
            part.replaceChildren(element("p", {}, element("b", {}, "An empty ring. "), "Add a drive, open a file, or begin with an example:"),
                element("div", {class: "cards"}, ...this.words.examples.map((it) => element("button", {onclick: () => this.replace(it.text)}, it.name))));
            return;
        }
        tools.append(element("button", {onclick: () => this.goError()}, "Go there (F8)"), element("code", {}, refusal.line));
        part.replaceChildren(element("p", {}, element("b", {}, what), ...(hint ? [` ${hint}`] : [])), element("p", {}, allowed), tools);
    }

    /** The marks of cells and of the text: what holds a slot, the margins, the chain, the refusal. */
    showMarks() {
        const marks = new Map(), spans = [], {refusal, reading} = this;
        const pathOfDrive = (address) => `drive[${[...this.times.drives.keys()].indexOf(address)}]`;
        const of = (drive, key) => (drive && key !== "gap" ? `${pathOfDrive(drive)}.${key}` : `ring.${key}`);
        const set = (path, more) => marks.set(path, {...marks.get(path), ...more});
        if (!refusal && this.times && this.answer.status >= 0) {
            if (this.margins) for (const [address, margin] of this.margins.drives) for (const [key, value] of Object.entries(margin)) set(of(address, key), {note: `≤${value}`});
            if (this.chain) {
                const sums = new Map();
                for (const {parts} of this.chain) for (const it of parts)
                    if (it.key in DECLARED || it.key === "gap") sums.set(of(it.drive, it.key), (sums.get(of(it.drive, it.key)) ?? 0) + it.length);
                for (const [path, sum] of sums) set(path, {chain: true, note: `+${plain(sum)} in the chain`, title: `${plain(sum)} µs in the chain`});
                for (const path of marks.keys()) if (marks.get(path).chain && reading.get(path)) spans.push({...this.span(path), kind: "chain"});
                if (this.chain.at(-1).rule < 10) set("ring.cycle", {chain: true, title: "the chain doesn't fit into this cycle"});
            } else {
                for (const row of this.rows) if (row.held) set(of(row.held.drive, KEY_OF[row.held.name] ?? "gap"), {holds: true, title: `holds ${row.name}: ${holds(row.held)}`});
            }
        }
        if (refusal) {
            const span = spanOf(reading, refusal), cell = /^((?:drive\[\d+\]|ring)\.\w+)/.exec(refusal.path)?.[1];
            spans.push({...span, kind: "wrong"});
            if (cell) set(cell, {wrong: true});
            if (refusal.path === "ring" && refusal.kind === "range") for (let place = 0; place < reading.drives().length; place++) set(`drive[${place}].mdt`, {wrong: true});
        }
        this.ringGrid.mark(marks);
        this.driveGrid.mark(marks);
        this.spans = spans;
        if (!this.isTable) this.text.draw(reading.text, spans);
    }

    span(path) {
        const {from, to} = this.reading.get(path);
        return {from, to};
    }

    // ---- going places ----

    goTo(drive, key) {
        const isRing = !drive || key === "gap" || RING_KEYS.includes(key), path = isRing ? `ring.${key}` : `drive[${[...this.times.drives.keys()].indexOf(drive)}].${key}`;
        if (this.isTable) (isRing ? this.ringGrid : this.driveGrid).focus(isRing ? 0 : this.driveGrid.row(drive), isRing ? RING_KEYS.indexOf(key) : Math.max(DRIVE_KEYS.indexOf(key), 0));
        else if (this.reading.get(path)) this.text.go(this.span(path));
        else if (!isRing) this.text.go(this.span(path.replace(/\.\w+$/, "")));
    }

    goError() {
        if (!this.refusal) return;
        this.choose("ring");
        const drive = /^drive\[(\d+)\]\.(\w+)/.exec(this.refusal.path), ring = /^ring\.(\w+)/.exec(this.refusal.path);
        const column = drive ? DRIVE_KEYS.indexOf(drive[2]) : ring ? RING_KEYS.indexOf(ring[1]) : -1;
        if (this.isTable && column >= 0 && !this.reading.stumble) {
            if (drive) this.driveGrid.focus(Number(drive[1]), column); else this.ringGrid.focus(0, column);
            return;
        }
        this.showAs(false);
        this.text.go(spanOf(this.reading, this.refusal));
    }

    showAs(isTable) {
        this.leave();
        this.isTable = isTable;
        get("table-pane").hidden = !isTable;
        get("text-pane").hidden = isTable;
        get("as-table").setAttribute("aria-pressed", isTable);
        get("as-text").setAttribute("aria-pressed", !isTable);
        if (!isTable) this.text.draw(this.reading.text, this.spans ?? []);
    }

    choose(name) {
        for (const view of ["ring", "check", "bits"]) {
            const isChosen = view === name, tab = get(`tab-${view}`);
            get(`view-${view}`).hidden = !isChosen;
            tab.setAttribute("aria-selected", isChosen);
            tab.tabIndex = isChosen ? 0 : -1;
        }
    }

    markDrive(address) {
        for (const row of get("plan-picture").querySelectorAll("tr[data-drive]")) row.classList.toggle("chosen", address > 0 && Number(row.dataset.drive) === address);
        this.driveGrid.rows.forEach(({line}, place) => line.classList.toggle("chosen", address > 0 && this.reading.value(`drive[${place}].address`, "integer") === address));
    }

    // ---- drives ----

    addDrive(place) {
        const made = new Edits(this.reading).withDrive(Math.max(place, 0));
        if (!made) return;
        this.leave();
        this.change(made.text);
        if (this.isTable) this.driveGrid.focus(made.place ?? 0, 0);
    }

    askRemove() {
        const place = this.driveGrid.at[0], edits = new Edits(this.reading), {address, requests, faults, order} = edits.references(place);
        const also = [requests.length && plural(requests.length, "request"), faults.length && plural(faults.length, "fault"), order.length && "its place in order"].filter(Boolean);
        const remove = () => {
            get("ask").hidden = true;
            this.change(edits.withoutDrive(place));
            this.driveGrid.focus(Math.min(place, this.reading.drives().length - 1), 0);
        };
        if (!also.length) return void remove();
        get("ask-words").textContent = `Remove drive ${address}, and what refers to it: ${also.join(", ")}? Undo brings all back.`;
        get("ask").hidden = false;
        get("ask-yes").onclick = remove;
        get("ask-no").onclick = () => { get("ask").hidden = true; };
        get("ask-yes").focus();
    }

    fillDown() {
        const [place, column] = this.driveGrid.at, key = DRIVE_KEYS[column];
        this.leave();
        if (key === "address") this.say("Each drive has an address of its own: choose another column to be filled down.");
        else this.change(new Edits(this.reading).filledDown(place, key));
    }

    // ---- files, links, keys ----

    async share() {
        const link = await linkOf(this.history.text);
        if (link.length > MOST_LINK) {
            this.say("This ring is too large for a link: send the file that Save makes.");
            return;
        }
        history.replaceState(null, "", link);
        try {
            await navigator.clipboard.writeText(location.href);
            this.say("The link is copied. The ring is in the link itself; nothing was sent.");
        } catch {
            this.say("The page's address now has the ring in it: copy it from there. Nothing was sent.");
        }
    }

    async save(kind) {
        if (kind === "ring") save("ring.toml", this.history.text);
        if (kind === "plan" && this.rows && this.planned && !this.planned.links) save("plan.svg", planPicture(this.times, this.rows, get("plan-words").textContent), "image/svg+xml");
        else if (kind === "plan") this.say("There is no plan to save.");
        if (kind === "trace" && this.run.canRun) save("trace.txt", await this.run.trace());
        else if (kind === "trace") this.say("There is no run to save.");
    }

    async open(file) {
        if (!file) return;
        if (file.size > MOST_TEXT) this.say("Too long: a document has at most 1,048,576 bytes.");
        else this.replace(await file.text());
    }

    listen() {
        const on = (id, kind, act) => get(id).addEventListener(kind, act);
        get("examples").append(element("option", {value: ""}, "Examples .."), ...this.words.examples.map((it, place) => element("option", {value: place}, it.name)), element("option", {value: "empty"}, "an empty ring"));
        on("examples", "change", ({target}) => {
            if (target.value !== "") this.replace(target.value === "empty" ? "" : this.words.examples[target.value].text);
            target.value = "";
        });
        on("open", "click", () => get("file").click());
        on("file", "change", ({target}) => { this.open(target.files[0]); target.value = ""; });
        on("save", "change", ({target}) => { const kind = target.value; target.value = ""; this.save(kind); });
        on("share", "click", () => this.share());
        on("undo", "click", () => this.undo());
        on("redo", "click", () => this.undo(true));
        on("print", "click", () => print());
        on("add", "click", () => this.addDrive(this.reading.drives().length - 1));
        on("copy", "click", () => this.addDrive(this.driveGrid.at[0]));
        on("fill", "click", () => this.fillDown());
        on("remove", "click", () => this.askRemove());
        on("as-table", "click", () => this.showAs(true));
        on("as-text", "click", () => this.showAs(false));
        for (const view of ["ring", "check", "bits"]) on(`tab-${view}`, "click", () => this.choose(view));
        on("tab-ring", "keydown", (event) => this.pressTab(event, 0));
        on("tab-check", "keydown", (event) => this.pressTab(event, 1));
        on("tab-bits", "keydown", (event) => this.pressTab(event, 2));
        on("theme", "change", ({target}) => { if (target.value) document.documentElement.dataset.theme = target.value; else delete document.documentElement.dataset.theme; });
        on("help-button", "click", ({target}) => {
            get("help").hidden = !get("help").hidden;
            target.setAttribute("aria-expanded", !get("help").hidden);
        });
        for (const kind of ["mouseover", "focusin"]) on("plan-picture", kind, ({target}) => this.markDrive(Number(target.closest("tr[data-drive]")?.dataset.drive ?? 0)));
        on("drive-grid", "focusin", () => this.markDrive(this.reading.value(`drive[${this.driveGrid.at[0]}].address`, "integer", 0)));
        addEventListener("keydown", (event) => this.press(event), true);
        addEventListener("dragover", (event) => event.preventDefault());
        addEventListener("drop", (event) => { event.preventDefault(); this.open(event.dataTransfer.files[0]); });
        addEventListener("hashchange", () => this.fromLink());
    }

    pressTab(event, place) {
        const next = {ArrowLeft: place + 2, ArrowRight: place + 1}[event.key];
        if (next === undefined) return;
        const name = ["ring", "check", "bits"][next % 3];
        this.choose(name);
        get(`tab-${name}`).focus();
    }

    async fromLink() {
        try {
            const text = await textOfLink(location.hash);
            if (text !== null) this.replace(text, "The ring of the link. Undo brings yours back.");
        } catch (fault) {
            this.say(`Nothing was opened: ${fault.message}.`);
        }
    }

    press(event) {
        const {key} = event, isShort = event.ctrlKey || event.metaKey, isOther = event.target.closest?.("#view-check, #view-bits");
        if (isShort && key.toLowerCase() === "z" && !isOther) this.undo(event.shiftKey);
        else if (isShort && key.toLowerCase() === "y" && !isOther) this.undo(true);
        else if (isShort && key === "Enter") this.run?.start();
        else if (key === "F8") this.goError();
        else if (key === "F6") this.nextPart(event.shiftKey);
        else if (event.altKey && "123".includes(key)) this.choose(["ring", "check", "bits"][Number(key) - 1]);
        else return;
        event.preventDefault();
    }

    nextPart(isBack) {
        const parts = ["ring-part", "plan-part", "run-part"], now = parts.findIndex((id) => get(id).contains(document.activeElement));
        get(parts[(now + (isBack ? 2 : 1) + (now < 0 && isBack ? 1 : 0)) % 3]).focus();
    }
}

const STATUS_WORDS = {6: "not enough memory", 7: "too long"};

async function start() {
    const words = JSON.parse(get("words").textContent);
    let first = words.examples[0].text, note = "";
    const kept = draft();
    if (kept !== null && kept !== first) {
        first = kept;
        note = "Your draft of last time. Examples are above.";
    }
    try {
        const linked = await textOfLink(location.hash);
        if (linked !== null) {
            first = linked.replaceAll("\r\n", "\n");
            note = "The ring of the link.";
        }
    } catch (fault) {
        note = `Nothing was opened: ${fault.message}.`;
    }
    window.page = new Page(words);
    await window.page.begin(first, note);
}

start();
