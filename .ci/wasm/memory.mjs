// The module's memory: `memory.mjs MODULE TABLES SUPPLEMENT`. Each request is refused in its turn, and all behind it; then what
// was held has to stay, and the same call has to be done. A million calls take no more memory, and nothing is lost.
import fs from "node:fs";
import { DONE, MEMORY, Library } from "./module.mjs";

const [path, tables, supplement] = process.argv.slice(2);
const library = new Library(path), calls = library.calls, json = library.put(fs.readFileSync(tables));
const [NONE, ROOM] = [library.put(Buffer.from(`ICUTEXT1${"\0".repeat(12)}`)), [library.take(8192), 8192n]];
const SUPPLEMENT = library.put(fs.readFileSync(supplement));
const LIST = library.put("en-US zh-Hant de-1996-fonipa yue-CN");
const REQUESTS = library.put("fr de-1996-1901 zh-TW");
const [SYNTAX, EXTENDED] = ["locales", "en-u-hc-h12-x-mine zh-TW-t-ja-u-nu-hanidec"].map((it) => library.put(it));
const ROWS = [
    ["maximize", "de-Latn-DE-1901-1996\tM", "de-1996-1901"],
    ["minimize", "zh-TW\tM", "zh-Hant-TW"],
    ["canonicalize", "sr-Latn\txyz\tM", "sh\tabcdefg"],
    ["canonicalize", "ja\tpiece000-piece001\tU", "ja\tpiece000-piece001"],
    ["name light en", "Italian (Latin, IPA Phonetics, posix)\tR", "it-Latn-fonipa-posix"],
    ["maximize", "?\tInvalidLanguage", "e"],
    ["fallback", "en-AU-1996-fonipa en-AU en-001 en und", "en-AU-1996-fonipa"],
    ["locales maximize", "en-Latn-US-u-hc-h12\tM", "en-u-hc-h12"],
    ["distance", "3", "en-AU en-GB"],
].map(placed);
// What a handle with the list answers besides.
const SERVED = [
    ["serve", "1\tzh-Hant", "fr;q=0.9, zh-TW;q=0.8, de-1996;q=0"],
    ["nearest", "1\tzh-Hant", "fr zh-TW"],
    ["locales nearest", "none", "fr-u-ca-buddhist"],
    ["or-first locales nearest", "0\ten-US", "fr-u-ca-buddhist"],
    ["locales resolved", "1\tzh-Hant-TW-u-nu-hanidec", "fr zh-TW-u-nu-hanidec"],
    ["negotiate", "1\tzh-Hant", "fr zh-TW"],
].map(placed);
const WHOLE = placed(["negotiate", "1\tzh-TW-t-ja-u-nu-hanidec", "fr zh-Hant"]);

function placed([command, wanted, line]) {
    return [library.put(command), wanted, library.put(line)];
}

function want(holds, what) {
    if (!holds) throw new Error(what);
}

// Makes a call with more and more requests granted, until it is done; `isKept` says whether all is as it was.
function refusedInTurn(what, call, isKept) {
    for (let granted = 0; ; granted++) {
        const taken = library.taken();
        library.grants(granted);
        const number = call();
        library.grants();
        if (number !== MEMORY) return want(number === DONE, `${what}: the number ${number}`), granted;
        want(isKept(), `${what}: not as it was behind refusal ${granted}`);
        want(/^an answer|^names/.test(what) || library.taken() === taken, `${what}: memory is lost behind refusal ${granted}`);
    }
}

function row(handle, [command, wanted, line]) {
    const [number, answer] = library.answer(handle, command, line);
    want(number === MEMORY || answer.toString() === wanted, `another answer than ${wanted}: ${answer}`);
    return number === MEMORY ? MEMORY : DONE;
}

const answersAll = (handle, rows = ROWS) => rows.every((it) => row(handle, it) === DONE);

// All calls that take memory, over handles that are then closed. Tells how many requests were refused.
function refusals() {
    const [one, other, negotiator, extended] = Array.from({ length: 4 }, () => library.handle());
    const meet = () => calls.icu_locale_negotiate(negotiator, ...REQUESTS, library.numbers, library.numbers + 8n);
    let count = refusedInTurn("open", () => calls.icu_locale_open(...json, one), () => !library.isOpen(one));
    const isOpen = () => library.isOpen(one);
    count += refusedInTurn("supplement", () => calls.icu_locale_supplement(one, ...SUPPLEMENT), isOpen);
    count += refusedInTurn("names that are lent", () => calls.icu_locale_lend_names(one, ...NONE), isOpen);
    count += refusedInTurn("names", () => calls.icu_locale_flat_names(one, ...ROOM, library.numbers), isOpen);
    for (const it of ROWS) count += refusedInTurn("an answer", () => row(one, it), isOpen);
    want(answersAll(one), "an answer behind refused ones");
    count += refusedInTurn("share", () => calls.icu_locale_share(one, other), () => !library.isOpen(other));
    count += refusedInTurn("available", () => calls.icu_locale_available(one, ...LIST, negotiator),
                           () => !library.isOpen(negotiator));
    for (const it of SERVED) count += refusedInTurn("an answer", () => row(negotiator, it), () => library.isOpen(negotiator));
    want(answersAll(negotiator, SERVED) && answersAll(negotiator), "an answer by a list behind refused ones");
    count += refusedInTurn("negotiate", meet, () => library.isOpen(negotiator));
    want(meet() === DONE && library.numberAt(library.numbers) === 2, "the place of what is met");
    const places = [library.numbers, library.numbers + 8n];
    const meetExtended = () => calls.icu_locale_negotiate_in(extended, ...SYNTAX, ...EXTENDED, ...places);
    count += refusedInTurn("available in a syntax", () => calls.icu_locale_available_in(one, ...SYNTAX, ...EXTENDED, extended),
                           () => !library.isOpen(extended));
    count += refusedInTurn("negotiate in a syntax", meetExtended, () => library.isOpen(extended));
    want(row(extended, WHOLE) === DONE, "an answer that is written whole");
    want(answersAll(other), "the tables that are shared");
    count += refusedInTurn("open once more", () => calls.icu_locale_open(...json, other), () => answersAll(other));
    for (const it of [one, other, negotiator, extended]) {
        calls.icu_locale_close(it);
        library.give(it);
    }
    return count;
}

function manyCalls(count) {
    const [one, handle] = [library.handle(), library.handle()], rows = [...ROWS, ...SERVED];
    want(calls.icu_locale_open(...json, one) === DONE, "open");
    want(calls.icu_locale_supplement(one, ...SUPPLEMENT) === DONE, "supplement");
    want(calls.icu_locale_available(one, ...LIST, handle) === DONE, "available");
    want(answersAll(handle, rows), "answers");
    const [size, taken] = [library.size(), library.taken()];
    for (let done = 0; done < count; done += rows.length) want(answersAll(handle, rows), "answers");
    want(library.size() === size && library.taken() === taken, "calls take more and more memory");
    for (let time = 0; time < 100; time++) want(calls.icu_locale_open(...json, one) === DONE, "open");
    want(library.size() <= size + 2 * 65536, "tables that are opened again take more and more memory");
    for (const it of [one, handle]) {
        calls.icu_locale_close(it);
        library.give(it);
    }
}

const before = library.taken(), count = refusals();
want(count > 100, "too few requests for memory were refused");
want(library.taken() === before, "memory is lost");
manyCalls(1_000_000);
want(library.taken() === before, "memory is lost");
console.log(`${count} refusals`);
