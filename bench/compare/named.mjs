// What locales are called in English by Intl.DisplayNames of Node.js, one a line: the names of languages alone. A line that
// Intl refuses is marked. `node named.mjs versions` says what is asked.
import { readFileSync } from "node:fs";

const REFUSED = "?";

const names = new Intl.DisplayNames(["en"], { type: "language", languageDisplay: "standard" });

function named(line) {
  try {
    return names.of(line);
  } catch {
    return REFUSED;
  }
}

if (process.argv[2] === "versions") {
  const { node, icu, cldr } = process.versions;
  console.log(`Node.js ${node} with ICU ${icu} and CLDR ${cldr}`);
} else {
  const lines = readFileSync(0, "utf8").split("\n");
  lines.pop();
  console.log(lines.map(named).join("\n"));
}
