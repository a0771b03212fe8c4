// The program for the page: two workers, so that a run never delays a plan.

/** What a question ended with in place of an answer. If it was lost, the reason was another question, and it can be asked again. */
class NoAnswer extends Error {
    constructor(reason, isLost) {
        super(reason);
        this.isLost = isLost;
    }
}

/** A worker with an instance of the module. */
class Instance {
    constructor(script, bytes) {
        Object.assign(this, {script, bytes, number: 0, waiting: new Map()});
        this.start();
    }

    start() {
        this.worker = new Worker(this.script);
        this.worker.onmessage = ({data}) => this.take(data);
        this.worker.onerror = (event) => { if (this.hasBegun) this.restart(event.message); else this.lose(event.message || "the worker can't begin"); };
        this.hasBegun = false;
        this.ready = this.ask("begin", {bytes: this.bytes});
        this.first = this.number;
        this.ready.then(() => { this.hasBegun = true; }, () => {});
    }

    take({id, part, answer, trap}) {
        const {done, fail, tell} = this.waiting.get(id) ?? {};
        if (!done) return;
        if (part) {
            tell?.(part);
            return;
        }
        this.waiting.delete(id);
        if (trap === undefined) {
            done(answer);
            return;
        }
        // Its stack and memory are in an unknown state: a new worker begins with new ones.
        if (id !== this.first) this.restart("it was begun anew");
        fail(new NoAnswer(trap, false));
    }

    lose(reason) {
        for (const {fail} of this.waiting.values()) fail(new NoAnswer(reason, true));
        this.waiting.clear();
    }

    /** An answer, once it is there. Of a long one `tell` gets parts. */
    ask(kind, more = {}, tell = null) {
        const id = this.number += 1;
        return new Promise((done, fail) => {
            this.waiting.set(id, {done, fail, tell});
            this.worker.postMessage({id, kind, ...more});
        });
    }

    /** Ends whatever goes on, and begins anew. */
    restart(reason) {
        this.worker.terminate();
        this.lose(reason);
        this.start();
    }
}

class Program {
    static async load(packed, source) {
        const letters = atob(packed), zipped = new Uint8Array(letters.length);
        for (let place = 0; place < zipped.length; place++) zipped[place] = letters.charCodeAt(place);
        const stream = new Blob([zipped]).stream().pipeThrough(new DecompressionStream("gzip"));
        const bytes = await new Response(stream).arrayBuffer();
        const script = URL.createObjectURL(new Blob([source], {type: "text/javascript"}));
        const program = new Program();
        program.answers = new Instance(script, bytes);
        program.runs = new Instance(script, bytes);
        await Promise.all([program.answers.ready, program.runs.ready]);
        return program;
    }

    plan(document) {
        return this.answers.ask("plan", {document});
    }

    call(words, input) {
        return this.answers.ask("call", {words, input});
    }
}
