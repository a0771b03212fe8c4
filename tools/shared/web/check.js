// Captures: what `check` says of one, with the lines about the place, and of a long one the cycles that are looked at.

const MOST_BYTES = 1048576;
const KIND_NAMES = {m: "MST", a: "AT", d: "MDT", p: "a drive's phase"};

/** A capture cut to cycles: its head, and the lines whose cycle is from one to another. */
function captureOf(text) {
    const lines = text.split("\n"), head = lines.findIndex((it) => /^[a-z]+ \d/.test(it) && !/^(sercos|ring|drive|order) /.test(it));
    return {lines, head: head < 0 ? lines.length : head, cycleOf: (line) => Number(line.split(" ")[1])};
}

/** The lines of some cycles, and which line of the whole each is. */
function partOf({lines, head, cycleOf}, first, last) {
    const kept = [], numbers = [];
    lines.forEach((line, place) => {
        const isOf = place < head || (line && !line.startsWith("end ") && cycleOf(line) >= first && cycleOf(line) <= last);
        if (isOf) {
            kept.push(line);
            numbers.push(place + 1);
        }
    });
    return {text: `${kept.join("\n")}\n`, numbers};
}

/** The last cycle up to which a capture isn't too long, from a first one on. */
function lastThatFits(capture, first) {
    const {lines, head, cycleOf} = capture;
    let bytes = lines.slice(0, head).reduce((sum, it) => sum + it.length + 1, 0), last = first;
    for (const line of lines.slice(head)) {
        if (!line || line.startsWith("end ") || cycleOf(line) < first) continue;
        bytes += line.length + 1;
        if (bytes > MOST_BYTES) return Math.max(last - 1, first);
        last = cycleOf(line);
    }
    return last;
}

/** By how many bit times a telegram is too early or too late, by the rules 6 to 9, in words. */
function excessWords(lines, place, rule) {
    const head = lines.slice(0, lines.findIndex((it) => it.startsWith("order ")) + 1).join("\n");
    if (!head) return "";
    const times = new Times(head), line = lines[place].split(" "), start = Number(line[2]), bits = Number(line[3]), rate = times.rate;
    const before = lines.slice(0, place).map((it) => it.split(" ")).filter((it) => it[1] === line[1] && "mad".includes(it[0]) && it[0].length === 1);
    const end = (it) => Number(it[2]) + Number(it[3]), drive = (it) => times.drives.get(parseInt(it[4].slice(0, 2), 16)), lacks = [];
    if (rule === 6 && before.length) lacks.push(end(before.at(-1)) + times.gap * rate - start);
    if (rule === 7) lacks.push(...before.filter((it) => it[0] === "a" && drive(it)?.slave === drive(line)?.slave).map((it) => end(it) + drive(line).tatat * rate - start));
    if (rule === 8) lacks.push(...before.filter((it) => it[0] === "a" && drive(it)).map((it) => end(it) + drive(it).tatmt * rate - start));
    if (rule === 9) lacks.push(start + bits + Math.max(times.gap, times.most("tmtsy").tmtsy) * rate - (times.cycle - times.mst) * rate);
    const most = Math.max(...lacks);
    return lacks.length && most > 0 ? `by ${plural(most, "bit time")}, ${plain(most / rate)} µs` : "";
}

class CheckView {
    constructor(parts, words, program) {
        Object.assign(this, {parts, words, program});
        parts.go.addEventListener("click", () => this.check());
        parts.area.addEventListener("input", () => { this.file = null; parts.range.hidden = true; });
        for (const kind of ["dragover", "drop"]) parts.part.addEventListener(kind, (event) => this.drop(event));
        parts.open.addEventListener("click", () => parts.file.click());
        parts.file.addEventListener("change", () => this.take(parts.file.files[0]));
    }

    drop(event) {
        event.preventDefault();
        event.stopPropagation();
        if (event.type === "drop" && event.dataTransfer.files[0]) this.take(event.dataTransfer.files[0]);
    }

    async take(file) {
        if (file) await this.set(await file.text(), file.name);
    }

    async set(text, name = "") {
        this.file = {text, name};
        const isLong = new Blob([text]).size > MOST_BYTES;
        this.parts.area.value = isLong ? `${name || "a capture"}: ${text.length} characters, too many to be shown here` : text;
        await this.check();
    }

    async check() {
        const {parts} = this, text = this.file?.text ?? parts.area.value, isLong = new Blob([text]).size > MOST_BYTES;
        const capture = captureOf(text);
        let part = {text, numbers: null}, words = "";
        parts.range.hidden = !isLong;
        if (isLong) {
            const all = capture.lines.slice(capture.head).filter((it) => it && !it.startsWith("end ")).map(capture.cycleOf), first = Number(parts.first.value || all[0]);
            const last = Math.min(Number(parts.last.value || Infinity), lastThatFits(capture, first));
            [parts.first.value, parts.last.value] = [first, last];
            part = partOf(capture, first, last);
            words = `A capture of more than ${MOST_BYTES} bytes: cycles ${first} to ${last} of ${all[0]} to ${all.at(-1)}.`;
        }
        try {
            this.show(part, await this.program.call(["check"], part.text), capture, words);
        } catch (fault) {
            parts.answer.replaceChildren(element("p", {class: "bad"}, `No answer: ${fault.message}. The program was started again.`));
        }
    }

    show(part, {status, output}, capture, more) {
        const line = output.trim(), found = /^(violation|refused) line (\d+) (?:rule (\d+) (\w+)|column (\d+))$/.exec(line), parts = [];
        if (more) parts.push(element("p", {}, more));
        if (status === 7) parts.push(element("p", {class: "bad"}, "Too long: at most 1,048,576 bytes."));
        else if (!found) parts.push(element("p", {class: "good"}, `Clean: ${plural(Number(line.split(" ")[1]), "line")}, no rule is broken.`));
        else {
            const [, kind, number, rule, name, column] = found, own = Number(number), place = part.numbers ? part.numbers[own - 1] ?? own : own;
            const known = kind === "violation" ? this.words.checks[rule] : null, cells = (capture.lines[place - 1] ?? "").split(" ");
            const excess = rule ? excessWords(capture.lines, place - 1, Number(rule)) : "";
            const telegram = KIND_NAMES[cells[0]] ? `cycle ${cells[1]}, ${KIND_NAMES[cells[0]]}${cells[0] === "a" ? ` of drive ${parseInt(cells[4], 16) ? parseInt(cells[4].slice(0, 2), 16) : "?"}` : ""}` : "";
            parts.push(element("p", {class: "bad"}, kind === "violation" ? `Line ${place} breaks rule ${rule}, ${name}: ${known.means}${excess ? `, ${excess}` : ""}.` : `Line ${place} can't be in a capture, from column ${column} on.`));
            if (telegram) parts.push(element("p", {}, telegram));
            if (known?.look) parts.push(element("p", {class: "muted"}, `Look first at: ${known.look}`));
            if (kind === "refused") parts.push(element("p", {class: "muted"}, column === "1" ? "It isn't allowed at this place, or the head ends too early: sercos 1, ring, a line for each drive, order." : ""));
            const rows = [];
            for (let at = Math.max(place - 3, 1); at <= Math.min(place + 3, capture.lines.length); at++)
                rows.push(element("tr", {class: at === place ? "chosen" : ""}, element("td", {class: "number"}, String(at)), element("td", {class: "code"}, (capture.lines[at - 1] ?? "").slice(0, 300))));
            parts.push(element("table", {}, element("tbody", {}, ...rows)));
        }
        parts.push(element("details", {}, element("summary", {}, "program's words"), element("pre", {}, output)));
        this.parts.answer.replaceChildren(...parts);
        this.parts.part.dataset.answer = line;
    }
}
