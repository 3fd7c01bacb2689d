// Large tables: `large.mjs MODULE TABLES` opens them under a bound that is too low, and with none; then it tells what
// that takes, and how long a call from JavaScript takes.
import fs from "node:fs";
import { DONE, MEMORY, Library } from "./module.mjs";

const PAGE = 65536, CALLS = 300_000;
const [path, tables] = process.argv.slice(2);
const library = new Library(path), handle = library.handle(), calls = library.calls;
const text = fs.readFileSync(tables), json = library.put(text);

function want(holds, what) {
    if (!holds) throw new Error(what);
}

for (const more of [0, 1, 16]) {
    const bound = library.size() + more * PAGE;
    library.bound(bound);
    want(calls.icu_locale_open(...json, handle) === MEMORY && !library.isOpen(handle), "tables under a low bound");
    want(library.size() <= bound, "memory above its bound");
}
library.bound();
const start = performance.now();
want(calls.icu_locale_open(...json, handle) === DONE, "the tables");
const opened = performance.now(), command = library.put("maximize"), line = library.put("zh-TW");
const ask = () => calls.icu_locale_answer(handle, ...command, ...line, library.out, 64n, library.numbers);
for (let time = 0; time < CALLS / 10; time++) ask();
const asked = performance.now();
for (let time = 0; time < CALLS; time++) want(ask() === DONE, "an answer");
const each = (performance.now() - asked) / CALLS * 1e6;
const parts = [`${(text.length / 1e6).toFixed(1)} MB of tables`, `${(opened - start).toFixed(0)} ms to open`,
               `${(library.size() / 1e6).toFixed(1)} MB of memory`, `${each.toFixed(0)} ns a call of maximize`];
console.log(parts.join(", "));
