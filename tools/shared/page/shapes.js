// What the scripts of the pages share: parts of a page, drawing, numbers as words, and the length of a frame.

const SVG = "http://www.w3.org/2000/svg";

function shape(name, attributes, ...inner) {
    const made = document.createElementNS(SVG, name);
    for (const [key, value] of Object.entries(attributes)) made.setAttribute(key, value);
    made.append(...inner);
    return made;
}

function element(name, attributes = {}, ...inner) {
    const made = document.createElement(name);
    for (const [key, value] of Object.entries(attributes)) {
        if (key.startsWith("on")) made.addEventListener(key.slice(2), value); else made.setAttribute(key, value);
    }
    made.append(...inner);
    return made;
}

/** The most bits of a frame of a content of so many bytes. */
function mostBits(bytes) {
    const bits = 8 * (bytes + 2);
    return 16 + bits + Math.floor(bits / 5);
}

function plain(number) {
    return String(Number(number.toFixed(3)));
}

function plural(count, word) {
    return `${count} ${word}${count === 1 ? "" : "s"}`;
}
