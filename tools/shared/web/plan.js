// The plan drawn to scale, or the chain that proves that none fits, as a staircase.

const BAR = 14;

/** A bar of a row: parts {from, to, class, title} over a span of microseconds. */
function bar(from, to, parts, extra = []) {
    const scale = 1000 / (to - from), x = (time) => (time - from) * scale;
    const shapes = parts.map((it) => {
        const width = Math.max((it.to - it.from) * scale, 1.5), top = it.top ?? 1, height = it.height ?? BAR - 2;
        return shape("rect", {class: it.class, x: x(it.from).toFixed(2), y: top, width: width.toFixed(2), height}, shape("title", {}, it.title));
    });
    const lines = extra.map((it) => shape("line", {class: it.class, x1: x(it.at).toFixed(2), x2: x(it.at).toFixed(2), y1: 0, y2: BAR}, shape("title", {}, it.title)));
    return shape("svg", {class: "bar", viewBox: `0 0 1000 ${BAR}`, preserveAspectRatio: "none", "aria-hidden": "true"}, ...shapes, ...lines);
}

function stepOf(span, count) {
    const rough = span / count, size = 10 ** Math.floor(Math.log10(rough));
    return [1, 2, 5, 10].map((it) => it * size).find((it) => it >= rough);
}

/** The ticks of an axis, about so many. */
function axis(from, to, count = 3) {
    const step = stepOf(to - from, count), ticks = [];
    for (let time = Math.ceil(from / step) * step; time <= to; time += step) {
        const tick = element("span", {}, plain(time));
        const share = (time - from) / (to - from);
        tick.style.left = `${100 * share}%`;
        tick.style.transform = `translateX(${share < 0.02 ? 0 : share > 0.97 ? -100 : -50}%)`;
        ticks.push(tick);
    }
    return element("div", {class: "axis", "aria-hidden": "true"}, ...ticks);
}

const BAR_CLASS = {at: "at", mdt: "mdt", mst: "mst"};

function waitParts(row) {
    return row.waits.map((it, lane) => ({from: it.begin, to: it.end, class: `wait ${it.name} ${it === row.held ? "holding" : ""}`,
                                         title: `${it.name} ${plain(it.end - it.begin)} µs ${it.of}${it === row.held ? ": holds" : ""}`,
                                         top: 1 + (lane % 3) * 4, height: 4}));
}

function planRow(times, row, choose, from, to) {
    const isPoint = row.kind === "t3" || row.kind === "t4";
    const words = isPoint ? `${plain(row.start)} µs` : `${plain(row.start)} to ${plain(row.end)} µs`;
    const parts = [...waitParts(row), ...(isPoint ? [] : [{from: row.start, to: row.end, class: BAR_CLASS[row.kind], title: `${row.name}: ${words}`}])];
    const lines = isPoint ? [{at: row.start, class: "point", title: `${row.name}: ${words}`}] : [];
    const name = element("button", {class: "name", onclick: () => choose(row)}, row.name);
    const line = element("tr", {"data-drive": row.drive, "data-kind": row.kind},
        element("th", {scope: "row"}, name), element("td", {class: "bars"}, bar(from, to, parts, lines)),
        element("td", {class: "code time"}, row.label), element("td", {class: "reason"}, holds(row.held)));
    return line;
}

/** All telegrams of the cycle in one row. */
function strip(rows, from, to, mst) {
    const parts = rows.filter((it) => BAR_CLASS[it.kind]).map((it) => ({from: it.start, to: it.end, class: BAR_CLASS[it.kind], title: `${it.name}: ${plain(it.start)} to ${plain(it.end)} µs`}));
    parts.unshift({from: -mst, to: 0, class: "mst", title: `MST: ${plain(-mst)} to 0 µs`});
    const lines = rows.filter((it) => it.kind === "t3" || it.kind === "t4").map((it) => ({at: it.start, class: "point", title: it.name}));
    return element("div", {class: "strip"}, bar(from, to, parts, lines));
}

/** The free time between the MDT and what has to be free before the next MST. */
function freeTime(times, plan) {
    return lastWait(times).begin - plan.t2 - times.mdt;
}

function drawPlan(times, plan, choose) {
    const from = -times.mst, to = times.cycle, rows = planRows(times, plan);
    const heads = ["", "", "µs", "what holds it"].map((it, place) => element("th", {scope: "col", class: ["", "bars", "", ""][place]}, it));
    heads[1].append(axis(from, to));
    const body = element("tbody", {}, ...rows.map((row) => planRow(times, row, choose, from, to)));
    const table = element("table", {class: "slots"}, element("caption", {}, "Slots to scale, in microseconds after the end of the MST"), element("thead", {}, element("tr", {}, ...heads)), body);
    return {rows, parts: [strip(rows, from, to, times.mst), table]};
}

const ENDS = {8: ["T3 is", "after the end of the cycle"], 9: ["The MDT ends", "too late for the next MST"], 10: ["T4 would be", "before the cycle"]};

function stepPlace(step) {
    if (step.bound !== null) return {8: "T3", 9: "end of the MDT, and what follows", 10: "T4min"}[step.rule];
    return step.rule < 5 ? `AT of drive ${step.drive}` : step.rule < 7 ? "MDT" : "T3";
}

function sumWords(step) {
    const terms = [...(step.from ? [plain(step.from)] : []), ...step.parts.map((it) => `${plain(it.length)} (${it.name})`)];
    const sum = step.from + step.parts.reduce((whole, it) => whole + it.length, 0);
    return terms.length > 1 ? `${terms.join(" + ")} = ${plain(sum)} µs` : `${terms.join("")} µs`;
}

function stepRow(step, from, to, bound, words, goTo) {
    let begin = step.from;
    const parts = step.parts.map((it) => {
        const made = {from: begin, to: begin + it.length, class: {at: "at", mdt: "mdt"}[it.key] ?? `wait ${it.name} holding`, title: `${it.name}: ${plain(it.length)} µs`};
        begin += it.length;
        return made;
    });
    if (step.bound !== null) parts.push({from: bound, to: step.end, class: "over", title: `${plain(step.end - bound)} µs above the bound`, top: 9, height: 4});
    const lines = [{at: bound, class: "bound", title: `the bound: ${plain(bound)} µs`}, {at: step.end, class: "point", title: stepPlace(step)}];
    const own = step.parts.filter((it) => it.key in DECLARED || it.key === "gap");
    const links = own.map((it) => element("button", {class: "link", onclick: () => goTo(it.drive, it.key)}, `${it.name}${it.drive ? ` of drive ${it.drive}` : ""}`));
    const shorter = words.rules[step.rule].shortens.replaceAll(/\bA\b/g, step.drive ? `drive ${step.drive}` : "the drives");
    const what = step.bound === null ? `${stepPlace(step)} at ${plain(step.end)} µs or later` : `${ENDS[step.rule][0]} ${plain(step.end - bound)} µs ${ENDS[step.rule][1]}`;
    return element("tr", {"data-drive": step.drive, class: step.bound === null ? "" : "last"},
        element("th", {scope: "row"}, `rule ${step.rule}`), element("td", {class: "bars"}, bar(from, to, parts, lines)),
        element("td", {class: "reason"}, `${what}: ${sumWords(step)}. `, ...(shorter ? [element("span", {class: "muted"}, `Shorter by: ${shorter}. `)] : []), ...links));
}

function drawChain(times, links, words, goTo) {
    const steps = chainSteps(times, links), last = steps.at(-1), to = Math.max(last.end, last.bound) * 1.02;
    const heads = ["", "", "each step begins where the one before it ends"].map((it, place) => element("th", {scope: "col", class: place === 1 ? "bars" : ""}, it));
    heads[1].append(axis(0, to));
    const body = element("tbody", {}, ...steps.map((step) => stepRow(step, 0, to, last.bound, words, goTo)));
    const table = element("table", {class: "slots chain"}, element("caption", {}, "Why no plan fits, in microseconds after the end of the MST"), element("thead", {}, element("tr", {}, ...heads)), body);
    return {steps, parts: [table]};
}

/** What a plan looks like, as a picture of its own: SVG. */
function planPicture(times, rows, title) {
    const left = 90, wide = 640, right = 380, high = 20, from = -times.mst, to = times.cycle, x = (time) => left + ((time - from) * wide) / (to - from);
    const ink = {at: "#2862a8", mdt: "#85480a", mst: "#4d5359"}, box = (it, top) => shape("rect", {x: x(it.start).toFixed(2), y: top + 3, width: Math.max(x(it.end) - x(it.start), 1).toFixed(2), height: 12, fill: ink[it.kind] ?? "#b3261e"});
    const words = (place, top, text) => shape("text", {x: place, y: top + 13}, text), parts = [words(10, 6, title)];
    rows.forEach((row, number) => {
        const top = 30 + high * number;
        parts.push(words(10, top, row.name), box({...row, end: Math.max(row.end, row.start)}, top), words(left + wide + 10, top, `${row.label}  ${holds(row.held)}`));
    });
    const svg = shape("svg", {xmlns: SVG, viewBox: `0 0 ${left + wide + right} ${40 + high * rows.length}`, "font-family": "sans-serif", "font-size": 11}, shape("rect", {width: "100%", height: "100%", fill: "#ffffff"}), ...parts);
    return new XMLSerializer().serializeToString(svg);
}
