// The ring as text: a text area over a copy of its text that has the marks.

class RingText {
    constructor(area, marks, lines, change) {
        Object.assign(this, {area, marks, lines});
        area.addEventListener("input", () => change(area.value));
        area.addEventListener("scroll", () => this.scrolled());
    }

    scrolled() {
        this.marks.scrollTop = this.lines.scrollTop = this.area.scrollTop;
        this.marks.scrollLeft = this.area.scrollLeft;
    }

    /** Shows a text, and where a change was made. */
    set(text, place = null) {
        if (this.area.value === text) return;
        const isHere = document.activeElement === this.area;
        this.area.value = text;
        if (isHere && place !== null) this.area.setSelectionRange(place, place);
    }

    /** Draws the text with its spans, {from, to, kind}, that don't overlap, and the numbers of its lines. */
    draw(text, spans) {
        const parts = [];
        let place = 0;
        const plain = (to) => {
            for (const line of text.slice(place, to).split(/(?<=\n)/)) {
                const comment = /(^|\s)#.*$/m.exec(line), header = /^\s*\[.*\]\s*$/m.test(line);
                if (header && !comment) parts.push(element("b", {}, line));
                else if (comment && !/["']/.test(line.slice(0, comment.index))) parts.push(line.slice(0, comment.index), element("i", {}, line.slice(comment.index)));
                else parts.push(line);
            }
            place = to;
        };
        for (const {from, to, kind} of [...spans].sort((one, other) => one.from - other.from)) {
            if (from < place) continue;
            plain(from);
            parts.push(element("mark", {class: kind}, text.slice(from, Math.max(to, from + 1)) || " "));
            place = Math.max(to, from);
        }
        plain(text.length);
        this.marks.replaceChildren(...parts, "\n");
        const count = text.split("\n").length, bad = new Set(spans.map((it) => (it.kind === "wrong" ? text.slice(0, it.from).split("\n").length : 0)));
        const key = `${count} ${[...bad]}`;
        if (this.key !== key) {
            this.key = key;
            const numbers = Array.from({length: count}, (_, place) => (bad.has(place + 1) ? "● " : "") + String(place + 1)).join("\n");
            this.lines.textContent = numbers;
        }
        this.scrolled();
    }

    /** Puts the cursor on a span, and shows it. */
    go({from, to}) {
        const {area} = this, line = area.value.slice(0, from).split("\n").length - 1;
        area.focus();
        area.setSelectionRange(from, to);
        const height = parseFloat(getComputedStyle(area).lineHeight);
        area.scrollTop = Math.max(line * height - area.clientHeight / 3, 0);
        this.scrolled();
    }
}
