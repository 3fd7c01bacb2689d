// Locale identifiers by line with the Intl objects of JavaScript.
//
//     node intl.mjs COMMAND [LOCALE]
//
// The commands are those of icu_locale_cli, as far as Intl has them: maximize, minimize, canonicalize, direction and
// `name LOCALE`. `languages`, `scripts` and `regions` write the subtags that Intl names in English and does not replace.
// `versions` says what is asked.
import { readFileSync, writeSync } from "node:fs";

const REFUSED = "?";

// What a call makes of a line; a line that Intl refuses is marked.
function orRefused(call) {
  return (line) => {
    try {
      return call(line) ?? REFUSED;
    } catch {
      return REFUSED;
    }
  };
}

function directionOf(locale) {
  const info = locale.getTextInfo ? locale.getTextInfo() : locale.textInfo;
  return info.direction;
}

function answers(command, locale) {
  switch (command) {
    case "maximize":
      return (line) => new Intl.Locale(line).maximize().toString();
    case "minimize":
      return (line) => new Intl.Locale(line).minimize().toString();
    case "canonicalize":
      return (line) => Intl.getCanonicalLocales(line)[0];
    case "direction":
      return (line) => directionOf(new Intl.Locale(line));
    case "name": {
      const names = new Intl.DisplayNames([locale], { type: "language" });
      return (line) => names.of(line);
    }
    default:
      return undefined;
  }
}

const LETTERS = [..."abcdefghijklmnopqrstuvwxyz"];
const DIGITS = [..."0123456789"];

// Every text of so many signs.
function texts(signs, length) {
  return length === 0 ? [""] : texts(signs, length - 1).flatMap((text) => signs.map((sign) => text + sign));
}

const inCapitals = (text) => text.toUpperCase();
const withCapital = (text) => inCapitals(text[0]) + text.slice(1);

// What a kind of subtag may be, in its written form, and what is before it in an identifier.
const KINDS = {
  languages: { type: "language", before: "", all: () => [...texts(LETTERS, 2), ...texts(LETTERS, 3)] },
  scripts: { type: "script", before: "und-", all: () => texts(LETTERS, 4).map(withCapital) },
  regions: { type: "region", before: "und-", all: () => [...texts(LETTERS, 2).map(inCapitals), ...texts(DIGITS, 3)] },
};

function named({ type, before, all }) {
  const names = new Intl.DisplayNames(["en"], { type, fallback: "none" });
  return all().filter((subtag) => names.of(subtag) && Intl.getCanonicalLocales(before + subtag)[0] === before + subtag);
}

// A pipe takes a part of a large buffer at a time.
function writeAll(text) {
  const bytes = Buffer.from(text);
  let place = 0;
  while (place < bytes.length) {
    place += writeSync(1, bytes, place);
  }
}

const [command, locale] = process.argv.slice(2);
if (command === "versions") {
  const { node, icu, cldr } = process.versions;
  console.log(`Node.js ${node} with ICU ${icu} and CLDR ${cldr}`);
} else if (command in KINDS) {
  writeAll(named(KINDS[command]).join("\n") + "\n");
} else {
  const call = answers(command, locale ?? "en");
  if (call === undefined) {
    console.error("usage: node intl.mjs COMMAND [LOCALE]");
    process.exit(2);
  }
  const lines = readFileSync(0, "utf8").split("\n");
  lines.pop();
  writeAll(lines.map(orRefused(call)).join("\n") + "\n");
}
