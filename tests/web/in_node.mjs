// The checks in node: `node in_node.mjs MODULE TASKS` makes the tasks of a file, and writes what each came to as JSON.

import { readFileSync } from "node:fs";
import { load } from "../../web/bspemu.js";
import { replay, starve, talk } from "./replay.js";

const bspemu = await load(readFileSync(process.argv[2]));
const tasks = JSON.parse(readFileSync(process.argv[3], "utf8"));
const endless = "loop: j loop\n";

const makers = {
  runs: (task) => replay(bspemu, task.records),
  sessions: (task) => talk(bspemu, task.records),
  starved: (task) => starve(bspemu, task.records[0], task.most),
  ended: async () => {
    const control = new AbortController();
    setTimeout(() => control.abort(), 500);
    const began = performance.now();
    const error = await bspemu.run({ image: endless, limit: 2 ** 40, signal: control.signal }).catch((it) => it);
    return { error: error.name, ms: performance.now() - began };
  },
};

const answers = {};
for (const [name, task] of Object.entries(tasks)) {
  answers[name] = await makers[task.kind](task);
}
console.log(JSON.stringify(answers));
process.exit(0);
