// What the bytes of a telegram are. docs/PROTOCOL.md, section 'Telegrams', has the places of the bits.

const TELEGRAMS = ["MST", "AT", "MDT"];
const LONG_NAMES = ["master synchronization telegram", "amplifier telegram", "master data telegram"];
const ELEMENTS = ["no element", "identifier number and data status", "name", "attribute", "unit", "minimum", "maximum", "operation data"];
const PHASES = ["the ring closes", "drives are identified", "times are read and written", "all telegrams, checked", "operation"];

function hex(bytes) {
    return Array.from(bytes, (byte) => byte.toString(16).padStart(2, "0")).join(" ");
}

function wordOf(bytes, place) {
    return bytes[place] | bytes[place + 1] << 8;
}

function word(value) {
    return "0x" + value.toString(16).padStart(4, "0");
}

function idnOf(value) {
    return `${value >> 15 ? "P" : "S"}-${value >> 12 & 7}-${String(value & 4095).padStart(4, "0")}`;
}

/** A number of a telegram, with the sign and the decimal places that its data block has. */
function valueOf(bytes, field) {
    let value = 0;
    for (let place = bytes.length - 1; place >= 0; place--) value = value * 256 + bytes[place];
    if (field.hexadecimal) return "0x" + value.toString(16).padStart(2 * bytes.length, "0");
    if (field.signed && value >= 2 ** (8 * bytes.length - 1)) value -= 2 ** (8 * bytes.length);
    const text = field.decimals ? (value / 10 ** field.decimals).toFixed(field.decimals) : String(value);
    return field.unit ? `${text} ${field.unit}` : text;
}

function bitRow(bits, name, value, words) {
    return {bytes: "", name: `bit${String(bits).includes(" ") ? "s" : ""} ${bits}: ${name}`, value: String(value), words, isBit: true};
}

/** The rows of the cyclic data: by the document's numbers, or as bytes. */
function dataRows(run, drive, kind, bytes, from) {
    const fields = run.meta.document?.fields[drive.address]?.[kind] ?? [];
    const title = kind === "at" ? "configured feedback value" : "configured command value";
    const rows = [];
    let place = 0;
    for (const field of fields) {
        if (place + field.bytes > bytes.length) break;
        const part = bytes.subarray(place, place + field.bytes);
        rows.push({bytes: hex(part), name: `${title} ${field.idn}`, value: valueOf(part, field), words: field.name});
        place += field.bytes;
    }
    if (place < bytes.length)
        rows.push({bytes: hex(bytes.subarray(place)), name: `${title}s`, value: "", words: "the low byte first"});
    return rows;
}

function mstRows(run, telegram) {
    const phase = telegram.bytes[1];
    return [{bytes: hex(telegram.bytes.subarray(0, 1)), name: "address", value: "255", words: "all drives"},
            {bytes: hex(telegram.bytes.subarray(1)), name: "phase commanded", value: String(phase), words: PHASES[phase]}];
}

function atRows(run, telegram) {
    const bytes = telegram.bytes, status = wordOf(bytes, 1), drive = run.byAddress.get(bytes[0]);
    const info = wordOf(bytes, 3), row = run.rowOf(drive, telegram.cycle), error = status >> 2 & 1;
    const cyclic = status & ~0x27;
    return [
        {bytes: hex(bytes.subarray(0, 1)), name: "address", value: String(bytes[0]), words: "the drive that sends"},
        {bytes: hex(bytes.subarray(1, 3)), name: "status word", value: word(status), words: ""},
        bitRow(0, "AHS, the drive's handshake bit", status & 1, "equal to the MHS of the step that the drive has accepted"),
        bitRow(1, "busy", status >> 1 & 1, status >> 1 & 1 ? "the step is still being processed" : "not busy"),
        bitRow(2, "error", error, error ? "the information word is the code of the error" : "no error"),
        bitRow(5, "change of a command", status >> 5 & 1, status >> 5 & 1 ? "a procedure command has ended" : "no change"),
        bitRow("3, 4 and 6 to 15", "cyclic", word(cyclic), "operating bits"),
        {bytes: hex(bytes.subarray(3, 5)), name: "service information word", value: word(info),
         words: row ? row.answer : "nothing new"},
        ...dataRows(run, drive, "at", bytes.subarray(5), 5),
    ];
}

function recordRows(run, drive, cycle, bytes, from) {
    const control = wordOf(bytes, 0), info = wordOf(bytes, 2), row = run.rowOf(drive, cycle), element = control >> 3 & 7;
    return [
        {bytes: hex(bytes.subarray(0, 2)), name: `control word of drive ${drive.address}`, value: word(control), words: ""},
        bitRow(0, "MHS, the master's handshake bit", control & 1, "another value than before is a new step"),
        bitRow(1, "write", control >> 1 & 1, control >> 1 & 1 ? "the step writes" : "the step reads, or there is no step"),
        bitRow(2, "last", control >> 2 & 1, control >> 2 & 1 ? "the last word of the element" : "not the last word of an element"),
        bitRow("3 to 5", "element of the data block", element, ELEMENTS[element]),
        bitRow("6 to 15", "cyclic", word(control & 0xffc0), "operating bits"),
        {bytes: hex(bytes.subarray(2, 4)), name: "service information word", value: word(info),
         words: row ? row.step : "idle"},
        ...dataRows(run, drive, "mdt", bytes.subarray(4), from + 4),
    ];
}

/** Of a joint MDT the record of the chosen drive bit by bit, and a row for each other one. */
function mdtRows(run, telegram, chosen) {
    const bytes = telegram.bytes, isJoint = run.phase(telegram.cycle) > 2;
    const to = isJoint ? "all drives, each of which has a record" : "the drive that it is sent to";
    const rows = [{bytes: hex(bytes.subarray(0, 1)), name: "address", value: String(bytes[0]), words: to}];
    if (!isJoint) {
        const drive = run.byAddress.get(bytes[0]);
        return drive ? [...rows, ...recordRows(run, drive, telegram.cycle, bytes.subarray(1), 1)] : rows;
    }
    for (const drive of run.drives) {
        const record = bytes.subarray(drive.record, drive.record + drive.record_length);
        if (drive === chosen) {
            rows.push(...recordRows(run, drive, telegram.cycle, record, drive.record));
        } else {
            const row = run.rowOf(drive, telegram.cycle);
            rows.push({bytes: hex(record), name: `record of drive ${drive.address}`, value: "",
                       words: row ? row.step : "idle", drive: drive.address});
        }
    }
    return rows;
}

function telegramName(telegram) {
    return telegram.kind === AT ? `AT of drive ${telegram.drive}` : TELEGRAMS[telegram.kind];
}

/** The place of a telegram in its cycle, in words. */
function placeWords(telegram) {
    return `${plain(telegram.start)} to ${plain(telegram.end)} microseconds, ${plural(telegram.bits, "bit")} ` +
        "with flags, check sequence and inserted zeros";
}

function fieldRows(run, telegram, chosen) {
    return telegram.kind === MST ? mstRows(run, telegram) : telegram.kind === AT ? atRows(run, telegram) : mdtRows(run, telegram, chosen);
}
