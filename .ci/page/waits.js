// What holds each slot, as the page says it: of each line of JSON on standard input, {head, answer}, a line with the rows of the plan.
"use strict";
const fs = require("fs"), path = require("path"), readline = require("readline"), vm = require("vm");
const read = (name) => fs.readFileSync(path.join(__dirname, "../../tools/shared", name), "utf8");
vm.runInThisContext(read("page/shapes.js"));
vm.runInThisContext(read("web/waits.js"));

readline.createInterface({input: process.stdin}).on("line", (line) => {
    const {head, answer} = JSON.parse(line), text = JSON.stringify([head, answer]);
    const rows = vm.runInThisContext(`(() => { const [head, answer] = ${text}; return planRows(new Times(head), readPlan(answer)).map((it) => [it.name, it.start, holds(it.held)]); })()`);
    process.stdout.write(JSON.stringify(rows) + "\n");
});
