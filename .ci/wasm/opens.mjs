// Opens each line of the input as tables: `opens.mjs MODULE` writes the number of each call.
import fs from "node:fs";
import { Library } from "./module.mjs";

const library = new Library(process.argv[2]), handle = library.handle(), text = fs.readFileSync(0);
let numbers = "";
for (let start = 0, stop; (stop = text.indexOf(10, start)) >= 0; start = stop + 1) {
    const json = library.put(text.subarray(start, stop));
    numbers += `${library.calls.icu_locale_open(...json, handle)}\n`;
    library.calls.icu_locale_close(handle);
    library.give(json[0]);
}
fs.writeFileSync(1, numbers);
