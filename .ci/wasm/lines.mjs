// The program's lines over the module, as `.ci/c/lines.c` has them over C: `lines.mjs MODULE TABLES COMMAND [SUPPLEMENT
// LIST]`, where the tables have a supplement and LIST is what is available. The status is 1 where a line is refused, and 2
// with a number on standard error where there is no answer.
import fs from "node:fs";
import { DONE, REFUSED, Library } from "./module.mjs";

const LONGEST = 65536;
const [path, tables, words, supplement, list] = process.argv.slice(2);
const library = new Library(path), place = library.take(LONGEST);

function refuse(number) {
    console.error(number);
    process.exit(2);
}

// A call over a text, which has to be done.
function done(call, text) {
    const [start, length] = library.put(text), number = call(start, length);
    if (number !== DONE) refuse(number);
    library.give(start);
}

let handle = library.handle();
done((...json) => library.calls.icu_locale_open(...json, handle), fs.readFileSync(tables));
if (supplement) {
    const negotiator = library.handle();
    done((...json) => library.calls.icu_locale_supplement(handle, ...json), fs.readFileSync(supplement));
    done((...texts) => library.calls.icu_locale_available(handle, ...texts, negotiator), list);
    handle = negotiator;
}
const command = library.put(words), text = fs.readFileSync(0), end = Buffer.from("\n"), answers = [];
for (let start = 0; start < text.length;) {
    let stop = text.indexOf(10, start);
    if (stop < 0) stop = text.length;
    library.bytes.set(text.subarray(start, stop), Number(place));
    const [number, answer] = library.answer(handle, command, [place, BigInt(stop - start)]);
    if (number > REFUSED) refuse(number);
    if (number === REFUSED) process.exitCode = 1;
    answers.push(answer, end);
    start = stop + 1;
}
fs.writeFileSync(1, Buffer.concat(answers));
