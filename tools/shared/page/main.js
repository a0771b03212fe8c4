// What the page does: one cycle and one drive are chosen, and all parts follow.

const get = (id) => document.getElementById(id);

/** What can be jumped to, by kind: cycles, ascending, each with its drive, or 0, and the kind of a telegram if it is about one. */
function goals(run) {
    const eventsOf = (...kinds) => run.events.filter((it) => kinds.includes(it.kind)).map(({cycle, drive}) => ({cycle, drive}));
    const missing = new Map(), lost = new Map();
    for (const {address, missing: cycles} of run.drives)
        for (const cycle of cycles) if (!missing.has(cycle)) missing.set(cycle, {cycle, drive: address, kind: AT});
    for (const [cycle, kind, drive] of run.meta.lost) if (!lost.has(cycle)) lost.set(cycle, {cycle, drive, kind});
    return [
        {key: "f", words: "fall", places: eventsOf("fall")},
        {key: "s", words: "stop", places: eventsOf("stop")},
        {key: "o", words: "outcome", places: eventsOf("complete", "refused", "broken")},
        {key: "m", words: "missing AT", places: [...missing.values()].sort((one, other) => one.cycle - other.cycle)},
        {key: "n", words: "not received", places: [...lost.values()]},
    ];
}

class Page {
    constructor(run) {
        this.run = run;
        this.cycle = run.first;
        this.drive = run.drives[0];
        this.select = (cycle, drive) => this.show({cycle, drive});
        this.timeline = new Timeline(get("timeline"), run, this.select, (words) => { get("pointer").textContent = words; });
        this.slots = new Slots(run, get("slots"), get("details"), (drive) => this.choose(drive));
        const heads = [["cycle", "number"], ["phase", "number"], ["AHS", "number"], ["answer in the AT", ""], ["MHS", "number"],
                       ["step in the MDT", ""]];
        this.channel = new Rows(get("channel"), heads, this.select);
        this.events = new Rows(get("events"), [["cycle", "number"], ["time", "number"], ["what", ""], ["", ""]], this.select);
        this.events.fill(run.events.length, (number) => eventRow(run, number, this.select));
        this.found = [];
        legend(run, get("legend"));
        this.fillDrives();
        this.fillJumps();
        this.listen();
        const [cycle, drive] = this.fromAddress();
        this.cycle = cycle;
        this.choose(drive || this.drive);
        this.follow();
        document.body.dataset.ready = "1";
        document.body.dataset.cycles = run.cycles;
        document.body.dataset.events = run.events.length;
    }

    /** The cycle and the drive that the page's address names, such as #cycle=301&drive=2. */
    fromAddress() {
        const words = new URLSearchParams(location.hash.slice(1));
        const first = this.goals.find((goal) => goal.places.length && "fso".includes(goal.key))?.places[0] ?? {cycle: this.run.first};
        return [Number(words.get("cycle") || first.cycle), this.run.byAddress.get(Number(words.get("drive") || first.drive))];
    }

    fillDrives() {
        get("drive").replaceChildren(...this.run.drives.map((drive) => element("option", {value: drive.address}, String(drive.address))));
        get("drive").addEventListener("change", () => this.choose(this.run.byAddress.get(Number(get("drive").value))));
        get("cycle-number").min = this.run.first;
        get("cycle-number").max = this.run.last;
    }

    fillJumps() {
        this.goals = goals(this.run);
        const pairs = this.goals.map((goal) => {
            const button = (by, sign, words) => {
                const title = `${words} ${goal.words}`;
                const made = element("button", {"aria-label": title, title, onclick: () => this.jump(goal, by)}, sign);
                made.disabled = !goal.places.length;
                return made;
            };
            const count = `${goal.words} (${goal.places.length})`;
            return element("span", {class: "pair"}, button(-1, "‹", "Previous"), count, button(1, "›", "Next"));
        });
        get("jumps").replaceChildren(...pairs);
    }

    jump(goal, by) {
        const cycleOf = (it) => it.cycle, places = goal.places;
        const place = by > 0 ? firstFrom(places, this.cycle + 1, cycleOf) : firstFrom(places, this.cycle, cycleOf) - 1;
        if (places[place]) this.show(places[place]);
    }

    /** Chooses a cycle, and what it is about: a drive, and a kind of telegram. */
    show({cycle, drive, kind}) {
        if (kind !== undefined) this.slots.chosen = {kind, drive: kind === AT ? drive : 0};
        this.cycle = cycle;
        if (drive && drive !== this.drive.address) this.choose(this.run.byAddress.get(drive)); else this.go(cycle);
    }

    /** Chooses a drive, whose channel is then shown. */
    choose(drive) {
        this.drive = drive;
        get("drive").value = drive.address;
        this.channel.fill(drive.rows.cycle.length, (number) => channelRow(this.run, drive, number, this.select));
        this.go(this.cycle);
    }

    /** Chooses a cycle. What takes longer follows when the next picture is drawn. */
    go(wanted) {
        const run = this.run, cycle = Math.min(Math.max(Math.round(wanted) || 0, run.first), run.last);
        this.cycle = cycle;
        this.timeline.set(cycle);
        const phase = run.phase(cycle), title = `Cycle ${cycle}: phase ${phase}, ${PHASES[phase]}, at ${milliseconds(run.time(cycle))}`;
        get("cycle-title").textContent = title;
        get("timeline").setAttribute("aria-valuemin", run.first);
        get("timeline").setAttribute("aria-valuemax", run.last);
        get("timeline").setAttribute("aria-valuenow", cycle);
        get("timeline").setAttribute("aria-valuetext", [title, ...run.eventsOf(cycle).map(eventWords)].join("; "));
        get("cycle-number").value = cycle;
        if (this.waits) return;
        this.waits = true;
        requestAnimationFrame(() => {
            this.waits = false;
            this.follow();
        });
    }

    /** Has the parts below the timeline show the chosen cycle. */
    follow() {
        const run = this.run, cycle = this.cycle;
        get("notes").replaceChildren(...this.noteItems(cycle));
        this.slots.show(cycle, this.drive);
        const row = run.rowAt(this.drive, cycle);
        this.channel.show(row, this.drive.rows.cycle[row]);
        this.events.show(firstFrom(run.events, cycle + 1, (it) => it.cycle) - 1, cycle);
        this.showPlan(cycle);
        history.replaceState(null, "", `#cycle=${cycle}&drive=${this.drive.address}`);
    }

    noteItems(cycle) {
        const run = this.run, items = run.eventsOf(cycle).map((it) => {
            const kind = element("span", {class: `kind ${it.kind}`}, KINDS[it.kind]);
            const item = element("li", {style: `border-color: var(--${it.kind})`}, kind, `: ${withNames(run, it.text)}`);
            for (const more of it.more) item.append(element("br"), more);
            return item;
        });
        const silent = run.drives.filter((drive) => run.isMissing(drive, cycle));
        if (silent.length) {
            const named = silent.slice(0, 12).map((it) => it.address).join(", ") + (silent.length > 12 ? " .." : "");
            const words = `no AT of ${silent.length > 1 ? "the drives" : "drive"} ${named}`;
            items.push(element("li", {style: "border-color: var(--missing)"}, words));
        }
        for (const [first, last, every, words] of run.meta.document?.faults ?? [])
            if (cycle >= first && cycle <= last && (cycle - first) % every === 0)
                items.push(element("li", {}, `the document's script: ${words}`));
        return items;
    }

    showPlan(cycle) {
        const plan = this.run.plan(cycle) || this.run.meta.plans[0];
        get("plan").hidden = !plan?.rows.length;
        if (!plan?.rows.length || plan === this.plan) return;
        this.plan = plan;
        const whose = plan.seen === undefined ? `The plan of cycle ${plan.cycle}` : `A plan as the telegrams of cycle ${plan.seen} show it`;
        get("plan-words").textContent = `In microseconds. ${whose}: T2 ${plan.t2}, T3 ${plan.t3}, T4 ${plan.t4}, ` +
            `an MDT of ${plural(plan.mdt, "byte")} after its address. A time with ● holds a slot.`;
        get("plan-table").replaceChildren(planTable(this.run, plan));
    }

    /** Looks for an identifier number in the channels of all drives, from the chosen cycle on. */
    search(by) {
        const idn = idnFrom(get("idn").value);
        if (!idn) {
            get("found").textContent = get("idn").value ? "An identifier number is S-0-0047, P-0-0010, or 47." : "";
            return;
        }
        if (this.idn !== idn) [this.idn, this.found] = [idn, findings(this.run, idn)];
        const name = this.run.nameOf(idn), title = name ? `${idn} (${name})` : idn;
        const here = this.cycle * 1000 + this.drive.place;
        const order = (it) => it.cycle * 1000 + it.drive.place;
        const place = by > 0 ? firstFrom(this.found, here + 1, order) : firstFrom(this.found, here, order) - 1;
        const finding = this.found[place];
        if (finding) {
            this.cycle = finding.cycle;
            this.choose(finding.drive);
        }
        const where = finding ? `${place + 1} of ${this.found.length}: cycle ${finding.cycle}, drive ${finding.drive.address}`
            : this.found.length ? `no other in this direction, of ${this.found.length}` : "not in a channel of this run";
        get("found").textContent = `${title}: ${where}${cyclicWords(this.run, idn)}`;
    }

    listen() {
        const timeline = this.timeline;
        get("previous").addEventListener("click", () => this.go(this.cycle - 1));
        get("next").addEventListener("click", () => this.go(this.cycle + 1));
        get("cycle-number").addEventListener("change", () => this.go(Number(get("cycle-number").value)));
        get("zoom-in").addEventListener("click", () => timeline.zoom(0.5));
        get("zoom-out").addEventListener("click", () => timeline.zoom(2));
        get("zoom-one").addEventListener("click", () => timeline.show(this.cycle, this.cycle + 1));
        get("zoom-all").addEventListener("click", () => timeline.show(this.run.first, this.run.last + 1));
        get("search").addEventListener("submit", (event) => { event.preventDefault(); this.search(1); });
        get("idn-previous").addEventListener("click", () => this.search(-1));
        get("help-button").addEventListener("click", () => {
            get("help").hidden = !get("help").hidden;
            get("help-button").setAttribute("aria-expanded", String(!get("help").hidden));
        });
        get("theme").addEventListener("change", () => this.theme(get("theme").value));
        document.addEventListener("keydown", (event) => this.key(event));
        window.addEventListener("hashchange", () => {
            const [cycle, drive] = this.fromAddress();
            this.cycle = cycle;
            this.choose(drive || this.drive);
        });
        new ResizeObserver(() => this.again()).observe(get("main"));
        window.matchMedia("(prefers-color-scheme: dark)").addEventListener("change", () => timeline.redraw());
        window.addEventListener("beforeprint", () => { this.theme("light"); this.slots.draw(); timeline.draw(); });
        window.addEventListener("afterprint", () => this.theme(get("theme").value));
    }

    again() {
        if (this.drawnWidth === get("main").clientWidth) return;
        this.drawnWidth = get("main").clientWidth;
        this.timeline.redraw();
        this.slots.draw();
    }

    theme(name) {
        if (name) document.documentElement.dataset.theme = name; else delete document.documentElement.dataset.theme;
        this.timeline.redraw();
    }

    key(event) {
        if (event.ctrlKey || event.altKey || event.metaKey || event.target.closest("input, select, .rows, .details")) return;
        const page = this.timeline.span * 0.8, step = event.shiftKey ? 10 : 1;
        const keys = {
            ArrowLeft: () => this.go(this.cycle - step), ArrowRight: () => this.go(this.cycle + step),
            Home: () => this.go(this.run.first), End: () => this.go(this.run.last),
            PageUp: () => this.go(this.cycle - Math.max(page, 1)), PageDown: () => this.go(this.cycle + Math.max(page, 1)),
            "+": () => this.timeline.zoom(0.5), "=": () => this.timeline.zoom(0.5), "-": () => this.timeline.zoom(2),
            0: () => this.timeline.show(this.run.first, this.run.last + 1), 1: () => this.timeline.show(this.cycle, this.cycle + 1),
            "?": () => get("help-button").click(),
        };
        for (const goal of this.goals) {
            keys[goal.key] = () => this.jump(goal, 1);
            keys[goal.key.toUpperCase()] = () => this.jump(goal, -1);
        }
        const act = keys[event.key];
        if (!act) return;
        event.preventDefault();
        act();
    }
}

/** The text of an identifier number from what was typed, such as 47 or s-0-47; nothing if that is no identifier number. */
function idnFrom(text) {
    const found = /^\s*(?:([SP])-([0-7])-)?(\d{1,4})\s*$/i.exec(text);
    if (!found || Number(found[3]) > 4095) return "";
    return `${(found[1] || "S").toUpperCase()}-${found[2] || 0}-${found[3].padStart(4, "0")}`;
}

/** Where the channels have an identifier number: the cycles and drives whose row names it, without repeated steps. */
function findings(run, idn) {
    const named = new Set();
    run.meta.texts.forEach((text, number) => { if (text.includes(idn) && !text.includes(", again")) named.add(number); });
    const found = [];
    for (const drive of run.drives) {
        const {cycle, answer, step, bits} = drive.rows;
        for (let place = 0; place < cycle.length; place++) {
            const kind = bits[place] & 3;
            if (kind !== IDLE && named.has(answer[place]) || kind === ROW && named.has(step[place]))
                found.push({cycle: cycle[place], drive});
        }
    }
    return found.sort((one, other) => one.cycle - other.cycle || one.drive.place - other.drive.place);
}

/** Which telegrams carry a number in each cycle, where the document has it. */
function cyclicWords(run, idn) {
    const parts = [];
    for (const [kind, words] of [["at", "AT"], ["mdt", "MDT"]]) {
        const drives = Object.entries(run.meta.document?.fields ?? {})
            .filter(([, fields]) => fields[kind].some((field) => field.idn === idn)).map(([address]) => address);
        if (drives.length) parts.push(`in each ${words} of drive ${drives.slice(0, 12).join(", ")}${drives.length > 12 ? " .." : ""}`);
    }
    return parts.length ? `; ${parts.join(", ")}` : "";
}

async function start() {
    try {
        const run = new Run(await unpacked(get("data").textContent));
        get("data").remove();
        get("main").hidden = false;
        window.page = new Page(run);
    } catch (fault) {
        get("message").hidden = false;
        get("message").textContent = `The page can't be shown: ${fault}. It needs a browser of 2024 or later.`;
        throw fault;
    }
}

start();
