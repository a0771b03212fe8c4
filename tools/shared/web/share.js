// A document in the page's own address, and files in and out. Nothing is sent anywhere.

const MOST_LINK = 8000, MOST_TEXT = 1048576;

async function through(stream, bytes) {
    return new Uint8Array(await new Response(new Blob([bytes]).stream().pipeThrough(stream)).arrayBuffer());
}

/** The text as the part of an address after its mark. */
async function linkOf(text) {
    const packed = await through(new CompressionStream("deflate-raw"), new TextEncoder().encode(text));
    return `#r=1.${btoa(Array.from(packed, (byte) => String.fromCharCode(byte)).join("")).replaceAll("+", "-").replaceAll("/", "_").replace(/=+$/, "")}`;
}

/** The text of such a part; nothing if the address has none. What is broken, or would be too long, is an error. */
async function textOfLink(hash) {
    if (!hash.startsWith("#r=")) return null;
    const found = /^#r=1\.([A-Za-z0-9_-]+)$/.exec(hash);
    if (!found || hash.length > 200000) throw new Error("the link has no ring that this page can read");
    try {
        const letters = atob(found[1].replaceAll("-", "+").replaceAll("_", "/"));
        const reader = new Blob([Uint8Array.from(letters, (it) => it.charCodeAt(0))]).stream().pipeThrough(new DecompressionStream("deflate-raw")).getReader();
        const pieces = [];
        for (let size = 0, piece = await reader.read(); !piece.done; piece = await reader.read()) {
            size += piece.value.length;
            if (size > MOST_TEXT) throw new Error("too long");
            pieces.push(piece.value);
        }
        return new TextDecoder("utf-8", {fatal: true}).decode(await new Blob(pieces).arrayBuffer());
    } catch {
        throw new Error("the link is broken: a part of it may be missing");
    }
}

function save(name, content, type = "text/plain") {
    const address = URL.createObjectURL(content instanceof Blob ? content : new Blob([content], {type})), link = element("a", {href: address, download: name});
    document.body.append(link);
    link.click();
    link.remove();
    setTimeout(() => URL.revokeObjectURL(address), 10000);
}

const DRAFT = "lokbrez.draft";

function keepDraft(text) {
    try {
        localStorage.setItem(DRAFT, text);
    } catch {
        // Some browsers have no place for it, as of a file.
    }
}

function draft() {
    try {
        return localStorage.getItem(DRAFT);
    } catch {
        return null;
    }
}
