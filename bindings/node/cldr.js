'use strict';
// CLDR's data inside the package, as texts of tables. docs/CLDR.md of the repository says what is in each file.
const { refusal, shown } = require('./refused.js');

/** The file of all that no locale has part in, and the list of the locales that there are names in. */
const BASE = 'base-and-supplement';
const LOCALES = 'locales';
/** What every locale has: the file of all but its names, and that of the names in the flat form. */
const ALL = 'all-but-names';
const FLAT = 'names.flat';
const NO_DATA = "this package has none of CLDR's data inside; Tables.fromJson takes tables of a folder of it, as "
  + 'tools/cldr-tables writes them';
const NAMES = '"names":'; // where names begin in the text of tables

/** The refusal of a package without data. */
function refuseWithoutData() {
  throw refusal('NoCldr', NO_DATA);
}

/** The refusal of a locale that CLDR has no names for. */
function refuseLocale(locale) {
  throw refusal('NoCldr', `CLDR has no locale ${shown(locale)}`);
}

/** The refusal of a file that is not what the package was made with. */
function damaged(file, why) {
  return refusal('NoCldr', `${file} is damaged: ${why}`);
}

/** The lines of the base, which is refused where they are too few. */
function wholeBase(lines, file) {
  if (lines.length < 4) throw damaged(file, 'it is too short');
  return lines;
}

/** The texts of tables and of their supplement with every locale but without names, of the lines of their file. */
function textsOfAll(lines, file) {
  if (lines.length !== 2) throw damaged(file, 'it has not two lines');
  const [supplement, tables] = lines;
  return { tables, supplement, missing: [] };
}

function keyOf(word) {
  return word.toLowerCase().replace(/_/g, '-');
}

/** The locale of a list that a word names, in any case, with `-` or `_`; undefined where there is none. */
function spelled(list, word) {
  const key = keyOf(word);
  return list.find((it) => it.toLowerCase() === key);
}

/** The languages whose files have the rows of some locales, once each. */
function languagesOf(locales) {
  if (!Array.isArray(locales) || !locales.every((it) => typeof it === 'string')) {
    throw new TypeError('locales are an array of strings, or `all`, which is every one');
  }
  return [...new Set(locales.map((it) => keyOf(it).split('-')[0]))];
}

// The blocks of a language's file, by its first line: groups of locales with the same rows.
function blocksOf(head) {
  const names = head.slice(head.indexOf(':') + 1);
  return names.split('|').map((block) => block.split(';').map((group) => group.split(',')));
}

/** How many lines of a language's file are read for some locales, by its first line: all but for those of the first block. */
function linesWanted(language, head, tables, locales) {
  const [groups, ...others] = blocksOf(head);
  if (others.length === 0) return Infinity;
  const keys = new Set(groups.flat().map(keyOf));
  const isFirst = locales.map(keyOf).every((it) => it.split('-')[0] !== language || keys.has(it));
  return isFirst ? 1 + tables * groups.length : Infinity;
}

// What a byte adds to a sum, as gzip has it.
const CHECKS = Uint32Array.from({ length: 256 }, (_, byte) => {
  let row = byte;
  for (let bit = 0; bit < 8; bit += 1) row = row % 2 ? 0xedb88320 ^ (row >>> 1) : row >>> 1;
  return row;
});

/** The lines of a first block, which are refused where they do not begin with the sum of what is behind it. */
function wholeBlock(lines) {
  const text = `${lines.join('\n')}\n`;
  const sum = new TextEncoder().encode(text.slice(8)).reduce((it, byte) => CHECKS[(it ^ byte) & 255] ^ (it >>> 8), -1);
  if ((~sum >>> 0).toString(16).padStart(8, '0') !== text.slice(0, 8)) throw new Error('its first block has another sum');
  return lines;
}

// The rows of each locale of a language, by its name: one for each table, which is empty where there is none.
function rowsOf([head, ...rows], tables) {
  const found = new Map();
  for (const groups of blocksOf(head)) {
    const block = rows.splice(0, tables * groups.length);
    groups.forEach((group, place) => {
      const its = block.filter((_, at) => at % groups.length === place);
      for (const locale of group) found.set(locale, its);
    });
  }
  return found;
}

// Rows by the order of their names: tables whose members come so are read in one pass.
function rowsInOrder(rows) {
  return new Map(rows.sort(([one], [other]) => (one < other ? -1 : 1)));
}

// The rows of some locales by the names that CLDR spells, and the locales that have none.
function chosen(files, locales, tables) {
  const all = [...files.values()].flatMap((lines) => [...rowsOf(lines, tables)]);
  const byKey = new Map(all.map((row) => [keyOf(row[0]), row]));
  const found = locales.map((it) => byKey.get(keyOf(it)));
  return [rowsInOrder(found.filter(Boolean)), locales.filter((_, place) => !found[place])];
}

// The rows of languages without those of dialects.
function withoutDialects(part, row) {
  if (!part.includes('"language/')) return row;
  return JSON.stringify(Object.fromEntries(Object.entries(JSON.parse(row)).filter(([key]) => !key.includes('-'))));
}

// The row of a locale's names of scripts, regions and variants alone.
function ofParts(part, row) {
  return /"(script|region|variant)\/[^"]*":\{$/.test(part) ? row : '';
}

// What becomes of a row, by what its table has before it: with dialects it stays.
const ROWS = { dialect: (part, row) => row, standard: withoutDialects, parts: ofParts };

/**
 * The texts of tables with the names of some locales, and of their supplement, of the lines of files; and the locales that
 * are missing. The names are those with dialects, those of languages in the standard way, or those of parts alone.
 */
function textsOf([called, behind, ...parts], files, locales, kind = 'dialect') {
  const end = parts.pop();
  const before = [called, ...parts];
  const columns = before.map(() => []);
  const [found, missing] = chosen(files, locales, before.length);
  for (const [locale, rows] of found) {
    rows.forEach((it, place) => {
      const row = it && ROWS[kind](before[place], it);
      if (row) columns[place].push(`"${locale}":${row}`);
    });
  }
  if (kind === 'parts') before[1] = `{${before[1].slice(before[1].lastIndexOf(NAMES))}`;
  const [supplement, ...tables] = before.map((part, place) => part + columns[place].join(','));
  return { tables: tables.join('') + end, supplement: supplement + behind, missing };
}

module.exports = {
  BASE, LOCALES, ALL, FLAT, refuseWithoutData, refuseLocale, damaged, wholeBase, textsOfAll, spelled, languagesOf, linesWanted,
  wholeBlock, textsOf,
};
