// trial-node.js MODULE PART PARTS < CASES: does each PARTSth case from PART on by the module, and prints those that end otherwise, as JSON.
const { readFileSync } = require("fs");
const { runInThisContext } = require("vm");
const { join } = require("path");
for (const file of ["call.js", "trial.js"]) runInThisContext(readFileSync(join(__dirname, file), "utf8"));
const [path, part, parts] = process.argv.slice(2);
const { jobs, cases } = JSON.parse(readFileSync(0, "utf8"));
const mine = cases.filter((_, number) => number % Number(parts) === Number(part));
differing(new WebAssembly.Module(readFileSync(path)), jobs.map(bytesOf), mine).then((found) => console.log(JSON.stringify(found)));
