// Answers lines of JSON on standard input, {words, input} in base64, by lines {status, output, taken} or {trap}: serve.js SERCOS.js MODULE
"use strict";
const fs = require("fs"), readline = require("readline");
const {Sercos, Trap} = require(process.argv[2]);
const sercos = new Sercos(new WebAssembly.Module(fs.readFileSync(process.argv[3])));

function answer({words, input, ring}) {
    const bytes = new Uint8Array(Buffer.from(input, "base64"));
    if (!ring) {
        const {status, output} = sercos.call(words, bytes);
        return {status, output: Buffer.from(output).toString("base64")};
    }
    const opened = sercos.ring(bytes), pieces = [];
    if (opened.status === 0) {
        pieces.push(opened.head());
        while (opened.cycle()) pieces.push(opened.lines());
        pieces.push(opened.end());
    }
    opened.close();
    return {status: opened.status, output: Buffer.concat(pieces).toString("base64")};
}

readline.createInterface({input: process.stdin}).on("line", (line) => {
    let found;
    try {
        found = {...answer(JSON.parse(line)), taken: sercos.taken()};
    } catch (fault) {
        if (!(fault instanceof Trap)) throw fault;
        found = {trap: fault.message};
    }
    process.stdout.write(JSON.stringify(found) + "\n");
});
