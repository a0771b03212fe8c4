// Reads documents as the page does: of each line of JSON on standard input, {text, refusal}, a line with the tree of its values, the spans
// of all nodes by path, and the span of the refusal.
"use strict";
const readline = require("readline"), path = require("path");
const web = path.join(__dirname, "../../tools/shared/web");
const {Reading} = require(path.join(web, "scanner.js")), {readRefusal, spanOf} = require(path.join(web, "refusals.js"));

function plain(node) {
    if (node.type === "table") return Object.fromEntries([...node.entries].map(([key, inner]) => [key, plain(inner)]));
    return node.type === "list" ? node.items.map(plain) : {type: node.type, value: String(node.value)};
}

readline.createInterface({input: process.stdin}).on("line", (line) => {
    const {text, refusal} = JSON.parse(line), reading = new Reading(text), found = {};
    found.spans = [...reading.paths].filter(([, node]) => node.type !== "table" && !node.isTables).map(([key, {from, to}]) => [key, text.slice(from, to)]);
    if (reading.stumble) found.stumble = reading.stumble.place; else found.tree = plain(reading.top);
    if (refusal) {
        const {from, to} = spanOf(reading, readRefusal(refusal));
        found.marked = text.slice(from, to);
    }
    process.stdout.write(JSON.stringify(found) + "\n");
});
