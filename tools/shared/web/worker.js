// A worker of the page: it has an instance of the program, and answers one question after another. A run is made in slices, so that it can
// be stopped, and its lines leave the worker as it goes on.

const SLICE = 16, LETTER = {m: 109, a: 97, d: 100, space: 32, line: 10};
let sercos = null, running = 0;
const text = (bytes) => new TextDecoder().decode(bytes);
const pause = () => new Promise((done) => { const channel = new MessageChannel(); channel.port1.onmessage = done; channel.port2.postMessage(0); });

/** The head of a document's trace: the numbers of its ring as the program has read them. */
function headOf(document) {
    const ring = sercos.ring(document);
    try {
        return ring.status === DONE ? text(ring.head()) : "";
    } finally {
        ring.close();
    }
}

/** Of the lines of a cycle the phase that its MST commands, and those that aren't telegrams. */
function events(lines) {
    let others = "", phase = 0;
    for (let from = 0; from < lines.length;) {
        const end = lines.indexOf(LETTER.line, from) + 1, letter = lines[from], isOne = lines[from + 1] === LETTER.space;
        if (isOne && letter === LETTER.m) phase = lines[end - 2] - 48;
        if (!isOne || ![LETTER.m, LETTER.a, LETTER.d].includes(letter)) others += text(lines.subarray(from, end));
        from = end;
    }
    return {others, phase};
}

async function run({document, keep}, tell) {
    const own = running += 1, began = performance.now(), ring = sercos.ring(document), pieces = [];
    try {
        if (ring.status !== DONE) return {status: ring.status};
        if (keep) pieces.push(ring.head());
        let cycles = 0, part = {phases: [], events: ""}, phase = -1, until = performance.now() + SLICE;
        while (ring.cycle()) {
            const lines = ring.lines(), found = events(lines);
            if (keep) pieces.push(lines);
            if (found.phase !== phase) part.phases.push([cycles, phase = found.phase]);
            part.events += found.others;
            cycles += 1;
            if (performance.now() < until) continue;
            tell({cycles, ...part});
            part = {phases: [], events: ""};
            await pause();
            if (running !== own) return {status: DONE, isStopped: true, cycles, end: text(ring.end()), took: performance.now() - began};
            until = performance.now() + SLICE;
        }
        const end = ring.end();
        if (keep) pieces.push(end);
        return {status: DONE, cycles, ...part, end: text(end), took: performance.now() - began, trace: keep ? new Blob(pieces) : null};
    } finally {
        ring.close();
    }
}

const ANSWERS = {
    begin({bytes}) {
        sercos = new Sercos(new WebAssembly.Module(bytes));
        return {};
    },
    call({words, input}) {
        const {status, output} = sercos.call(words, input);
        return {status, output: text(output)};
    },
    plan({document}) {
        const {status, output} = sercos.call(["plan"], document);
        return {status, output: text(output), head: status < 2 ? headOf(document) : ""};
    },
    run,
};

onmessage = async ({data}) => {
    if (data.kind === "stop") {
        running += 1;
        return;
    }
    const began = performance.now();
    try {
        const answer = await ANSWERS[data.kind](data, (part) => postMessage({id: data.id, part}));
        postMessage({id: data.id, answer: {took: performance.now() - began, ...answer}});
    } catch (fault) {
        postMessage({id: data.id, trap: String(fault.message)});
    }
};
