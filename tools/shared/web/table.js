// The ring as a table: a view of the text, whose cells are edited in place. One Tab stop, arrows inside, Enter edits, Escape reverts.

const RING_KEYS = ["rate", "cycle", "control", "gap", "cycles", "order"];
const DRIVE_KEYS = ["address", "slave", "t1min", "tatmt", "t4min", "tatat", "tmtsy", "tmtsg", "at", "mdt", "busy", "command", "cycle_min", "cycle_max"];
const ABSENT = {control: "cycle", gap: "5", order: "as below", slave: "address", busy: "0", command: "0", cycle_min: "125", cycle_max: "64000", at: "none", mdt: "none"};
const HEADS = {t1min: "T1min", tatmt: "TATMT", t4min: "T4min", tatat: "TATAT", tmtsy: "TMTSY", tmtsg: "TMTSG", cycle_min: "shortest cycle", cycle_max: "longest cycle"};
const UNITS = {rate: "Mbit/s", cycle: "µs", control: "µs", gap: "µs", t1min: "µs", tatmt: "µs", t4min: "µs", tatat: "µs", tmtsy: "µs", tmtsg: "µs",
               busy: "cycles", command: "cycles", cycle_min: "µs", cycle_max: "µs"};

/** A grid of cells, each a key of a table of the document. */
class Grid {
    constructor(place, label, keys, words, act) {
        Object.assign(this, {place, keys, words, act, at: [0, 0], rows: [], editor: null});
        place.setAttribute("role", "grid");
        place.setAttribute("aria-label", label);
        const heads = keys.map((key) => {
            const title = `${words[key].title}. ${words[key].description}`;
            return element("th", {scope: "col", title, role: "columnheader"}, HEADS[key] ?? key, element("small", {}, UNITS[key] ?? ""));
        });
        this.first = label === "Drives" ? [element("th", {scope: "col", role: "columnheader"}, "#")] : [];
        this.body = element("tbody", {role: "rowgroup"});
        place.replaceChildren(element("thead", {role: "rowgroup"}, element("tr", {role: "row"}, ...this.first, ...heads)), this.body);
        place.addEventListener("keydown", (event) => this.press(event));
        place.addEventListener("mousedown", (event) => this.pointed(event));
        place.addEventListener("dblclick", (event) => { if (this.placeOf(event.target)) this.edit(); });
        place.addEventListener("focusin", (event) => {
            const found = this.placeOf(event.target);
            if (found) this.choose(...found);
        });
    }

    placeOf(target) {
        const cell = target.closest?.("td[data-key]");
        return cell && [this.rows.findIndex((it) => it.cells.includes(cell)), this.keys.indexOf(cell.dataset.key)];
    }

    cell(row = this.at[0], column = this.at[1]) {
        return this.rows[row]?.cells[column];
    }

    /** Shows rows of tables of a document: only what differs is changed. */
    show(reading, paths, lost) {
        while (this.rows.length > paths.length) this.rows.pop().line.remove();
        while (this.rows.length < paths.length) this.rows.push(this.made());
        this.reading = reading;
        this.paths = paths;
        this.place.setAttribute("aria-readonly", String(lost));
        paths.forEach((path, row) => {
            const table = reading.get(path), {cells, head} = this.rows[row];
            if (head) this.text(head, String(row + 1));
            this.keys.forEach((key, column) => {
                const node = table?.entries?.get(key), words = cellText(reading, node), shown = node ? words : ABSENT[key] ?? "";
                const cell = cells[column], value = cell.firstChild;
                cell.classList.toggle("absent", !node);
                if (!(this.editor?.parentNode === cell)) this.text(value, shown || " ");
            });
        });
        this.choose(Math.max(Math.min(this.at[0], paths.length - 1), 0), this.at[1]);
    }

    text(part, words) {
        if (part.textContent !== words) part.textContent = words;
    }

    made() {
        const cells = this.keys.map((key) => element("td", {"data-key": key, role: "gridcell", tabindex: -1}, element("span"), element("small")));
        const head = this.first.length ? element("th", {scope: "row", role: "rowheader"}) : null;
        const line = element("tr", {role: "row"}, ...(head ? [head] : []), ...cells);
        this.body.append(line);
        return {line, cells, head};
    }

    choose(row, column) {
        this.cell()?.setAttribute("tabindex", -1);
        this.at = [row, column];
        this.cell()?.setAttribute("tabindex", 0);
    }

    focus(row, column) {
        if (!this.cell(row, column)) return;
        this.choose(row, column);
        this.cell().focus();
        this.cell().scrollIntoView({block: "nearest", inline: "nearest"});
    }

    pointed(event) {
        const found = this.placeOf(event.target);
        if (!found || event.target === this.editor) return;
        const isSame = document.activeElement === this.cell(...found);
        if (this.editor) this.leave(false);
        event.preventDefault();
        this.focus(...found);
        if (isSame) this.edit();
    }

    press(event) {
        if (this.editor) return;
        const [row, column] = this.at, {key} = event, isShort = event.ctrlKey || event.metaKey;
        const moves = {ArrowUp: [row - 1, column], ArrowDown: [row + 1, column], ArrowLeft: [row, column - 1], ArrowRight: [row, column + 1],
                       Home: [isShort ? 0 : row, 0], End: [isShort ? this.rows.length - 1 : row, this.keys.length - 1], PageUp: [Math.max(row - 10, 0), column],
                       PageDown: [Math.min(row + 10, this.rows.length - 1), column]};
        if (event.altKey && (key === "ArrowUp" || key === "ArrowDown")) this.step((key === "ArrowUp" ? 1 : -1) * (event.shiftKey ? 10 : 1));
        else if (moves[key] && !event.altKey) this.focus(...moves[key]);
        else if (key === "Enter" || key === "F2") this.edit();
        else if (key === "Delete" || key === "Backspace") this.put("");
        else if (key.length === 1 && !isShort && !event.altKey) this.edit(key);
        else return;
        event.preventDefault();
    }

    isLocked() {
        return this.place.getAttribute("aria-readonly") === "true";
    }

    put(typed, mark = "") {
        const [row, column] = this.at;
        if (!this.isLocked()) this.act(this.paths[row], this.keys[column], typed, mark);
    }

    /** Changes a number by some units. */
    step(by) {
        const [row, column] = this.at, value = this.reading.value(`${this.paths[row]}.${this.keys[column]}`, "integer");
        if (typeof value === "number") this.put(String(Math.max(value + by, 0)), `step ${row} ${column}`);
    }

    edit(first = null) {
        const [row, column] = this.at, cell = this.cell(), node = this.reading.get(`${this.paths[row]}.${this.keys[column]}`);
        if (!cell || this.editor || this.isLocked()) return;
        const old = cellText(this.reading, node), label = `${HEADS[this.keys[column]] ?? this.keys[column]}, ${this.words[this.keys[column]].title}`;
        const editor = element("input", {"aria-label": label, spellcheck: "false", autocomplete: "off"});
        editor.value = first ?? old;
        this.old = old;
        this.session = `cell ${performance.now()}`;
        cell.firstChild.hidden = true;
        cell.append(editor);
        this.editor = editor;
        editor.focus();
        if (first === null) editor.select(); else this.put(editor.value, this.session);
        editor.addEventListener("input", () => this.put(editor.value, this.session));
        editor.addEventListener("blur", () => this.leave(false));
        editor.addEventListener("keydown", (event) => this.pressed(event));
    }

    pressed(event) {
        const {key} = event, [row, column] = this.at;
        event.stopPropagation();
        if (event.altKey && (key === "ArrowUp" || key === "ArrowDown")) {
            this.editor.value = String(Math.max((Number(this.editor.value) || 0) + (key === "ArrowUp" ? 1 : -1) * (event.shiftKey ? 10 : 1), 0));
            this.put(this.editor.value, this.session);
            event.preventDefault();
        } else if (key === "Enter" || key === "ArrowDown" || key === "ArrowUp") {
            this.leave(true);
            this.focus(Math.max(Math.min(row + (key === "ArrowUp" || event.shiftKey ? -1 : 1), this.rows.length - 1), 0), column);
            event.preventDefault();
        } else if (key === "Escape") {
            if (this.editor.value !== this.old) this.put(this.old, this.session);
            this.leave(true);
        } else if (key === "Tab") {
            const next = column + (event.shiftKey ? -1 : 1);
            if (!this.keys[next]) return;
            this.leave(true);
            this.focus(row, next);
            event.preventDefault();
        }
    }

    leave(isKept) {
        const {editor} = this, cell = editor?.parentNode;
        if (!editor) return;
        this.editor = null;
        editor.remove();
        cell.firstChild.hidden = false;
        if (isKept) cell.focus();
        this.show(this.reading, this.paths, this.isLocked());
    }

    /** Marks cells: `marks` has, by path and key, {class, title, note}. */
    mark(marks) {
        this.rows.forEach(({cells}, row) => this.keys.forEach((key, column) => {
            const cell = cells[column], found = marks.get(`${this.paths[row]}.${key}`) ?? {}, note = cell.children[1];
            for (const name of ["holds", "chain", "wrong"]) cell.classList.toggle(name, Boolean(found[name]));
            this.text(note, found.note ?? "");
            if (cell.title !== (found.title ?? "")) cell.title = found.title ?? "";
            if (found.wrong) {
                cell.setAttribute("aria-invalid", "true");
                cell.setAttribute("aria-describedby", "refusal");
            } else if (cell.hasAttribute("aria-invalid")) {
                cell.removeAttribute("aria-invalid");
                cell.removeAttribute("aria-describedby");
            }
        }));
    }

    row(address) {
        return this.paths.findIndex((path) => this.reading.value(`${path}.address`, "integer") === address);
    }
}
