'use strict';
// Locale and DisplayNames side by side with Intl.Locale and Intl.DisplayNames of this Node.js: `intl.js [COUNT]`. So many texts
// are drawn, always the same. Each difference is of a kind that README.md tells; one of no kind is a fault.
const assert = require('assert');
const { DisplayNames, Locale, Tables, Refused, cldrVersion } = require('icu_locale');

const COUNT = Number(process.argv[2] || 100000);
const VERSIONS_DIFFER = process.versions.cldr && process.versions.cldr.split('.')[0] !== cldrVersion();
const LANGUAGES = ['en', 'de', 'zh', 'sr', 'ar', 'und', 'yue', 'iw', 'hy', 'fr', 'ja', 'tlh', 'qaa', 'sgn', 'english', 'e', 'root'];
const SCRIPTS = ['Latn', 'Cyrl', 'Hant', 'Arab', 'Qaai', 'Zzzz', 'Qabc', 'Lat'];
const REGIONS = ['US', 'DE', 'TW', 'SU', '419', 'DD', 'GB', '172', 'ZZ', 'QX', 'USA', '1'];
const VARIANTS = ['1996', 'fonipa', 'rozaj', 'posix', 'arevela', 'heploc', 'abcde', 'a1b2', 'abcdefghi'];
const KEYS = ['ca', 'nu', 'co', 'hc', 'kn', 'kf', 'rg', 'sd', 'tz', 'ks', 'zz', 'c', 'va'];
const VALUES = ['', 'buddhist', 'islamicc', 'latn', 'phonebk', 'h12', 'true', 'yes', 'false', 'upper', 'uszzzz', 'usca', 'no', 'cnckg', 'islamic-civil',
  'primary', 'abc', 'ab', 'posix'];
const FIELDS = ['m0', 'k0', 's0', 'd0', 'x0', 'mm'];
const FIELD_VALUES = ['ungegn', 'names', 'dvorak', 'din', 'fwidth', 'ab'];
const OTHERS = ['x-a', 'x-mine-1', 'a-bcd', 'z-ab-cd', 'u', 'x', 'u-attr', 'a-b', 't-de', 't-iw-latn'];

// A generator of numbers, always the same (xorshift).
let state = 88172645;
function below(many) {
  state ^= state << 13;
  state ^= state >>> 17;
  state ^= state << 5;
  return (state >>> 0) % many;
}
const one = (list) => list[below(list.length)];
const letters = (length) => Array.from({ length }, () => String.fromCharCode(97 + below(26))).join('');

function drawn() {
  const pieces = [below(3) ? one(LANGUAGES) : letters(2 + below(2))];
  if (below(3) === 0) pieces.push(one(SCRIPTS));
  if (below(2)) pieces.push(below(3) ? one(REGIONS) : letters(2));
  for (let left = below(4); left > 2; left -= 1) pieces.push(one(VARIANTS), one(VARIANTS));
  if (below(5) === 0) pieces.push(one(VARIANTS));
  if (below(6) === 0) pieces.push('t', ...(below(2) ? ['en'] : []), one(FIELDS), one(FIELD_VALUES));
  if (below(3) === 0) pieces.push('u', one(KEYS), one(VALUES), ...(below(2) ? [one(KEYS), one(VALUES)] : []));
  if (below(8) === 0) pieces.push(one(OTHERS));
  const text = pieces.filter(Boolean).join(below(20) ? '-' : '_');
  return below(4) ? text : text.toUpperCase();
}

// What a call gives, or null where it refuses.
function told(call) {
  try {
    return call();
  } catch (fault) {
    assert.ok(fault instanceof Refused || fault instanceof RangeError, String(fault));
    return null;
  }
}

const counts = new Map();
const faults = [];
// One more of a kind; without one, a fault.
function count(kind, what, here, there) {
  if (kind) counts.set(kind, (counts.get(kind) || 0) + 1);
  else faults.push(`${what}: ${here}, and there ${there}`);
}

// The kinds of differences between locales: the first that fits. Either may be refused.
const OF_LOCALES = [
  ['a text with _, which is read here alone', (text, here, there) => !there && text.includes('_')],
  ['a language of five to eight letters, which is read there alone', (text, here) => !here && /^[a-z]{5,8}\b/i.test(text)],
  ['the variant posix, which is u-va-posix there', (text, here, there) => here && there && here.variants.includes('posix')],
  ['the value yes, which is true there at each key', (text) => /-yes\b/i.test(text)],
  ['the value true behind another letter, which is left out there', (text, here, there) => here && there
    && Object.values(here.extensions).some((it) => /true/.test(it))],
  ['an alias of another version of CLDR', (text, here, there) => here && there && VERSIONS_DIFFER],
];
const kindOf = (kinds, ...facts) => (kinds.find(([, fits]) => fits(...facts)) || [])[0];

const FIELDS_OF_INTL = ['baseName', 'language', 'script', 'region', 'calendar', 'collation', 'hourCycle', 'caseFirst', 'numeric',
  'numberingSystem'];

const OF_PARTS = [
  ['the language und, which is undefined there', (name, here, there) => name === 'language' && here === 'und' && there === undefined],
  ['u-va-posix, which is in baseName there', (name, here, there) => name === 'baseName' && there === `${here}-u-va-posix`],
  ['a value that is left out, which is empty here, and true there', (name, here, there) => here === '' && there === 'true'],
];
const OF_LIKELY = [
  ['Zzzz or ZZ, which stays there', (text) => /-(zzzz|zz)\b/i.test(text.replace(/-[tu]-.*/i, ''))],
  ['und for which nothing is told, which is English there', (text, here, there) => /^und\b/i.test(here) && /^en\b/.test(there)],
  ['likely subtags of another version of CLDR', () => VERSIONS_DIFFER],
];

function comparedLocales(tables) {
  for (let left = COUNT; left; left -= 1) {
    const text = drawn();
    const here = told(() => new Locale(tables.canonicalize(text)));
    const there = told(() => new Intl.Locale(text));
    if (String(here) !== String(there)) {
      count(kindOf(OF_LOCALES, text, here, there), text, here, there);
    } else if (here) {
      for (const name of FIELDS_OF_INTL) {
        const [ours, theirs] = [here[name], there[name]];
        if (ours !== theirs) count(kindOf(OF_PARTS, name, ours, theirs), `${name} of ${text}`, ours, theirs);
      }
      for (const call of ['maximize', 'minimize']) {
        const [ours, theirs] = [here[call](tables), there[call]()].map(String);
        if (ours !== theirs) count(kindOf(OF_LIKELY, text, ours, theirs), `${call} ${text}`, ours, theirs);
      }
    }
  }
}

const pairs = (first, second) => [...first].flatMap((one) => [...second].map((other) => one + other));
const LETTERS = 'ABCDEFGHIJKLMNOPQRSTUVWXYZ';
const CODES = {
  region: [...pairs(LETTERS, LETTERS), '001', '002', '005', '019', '150', '419', '142', '999', 'us', '1', 'USA'],
  script: ['Latn', 'Cyrl', 'Hans', 'Hant', 'Arab', 'Aran', 'Jpan', 'Kore', 'Hanb', 'Zsym', 'Zsye', 'Zyyy', 'Zzzz', 'Qabc', 'Xsux', 'latn', 'Lat',
    'Deva', 'Thai', 'Geor', 'Armn', 'Ethi', 'Khmr', 'Mlym', 'Ogam', 'Runr'],
  language: [...pairs(LETTERS.toLowerCase(), LETTERS.toLowerCase()), 'yue', 'gsw', 'tlh', 'haw', 'und', 'mul', 'zxx', 'en-US', 'en-GB', 'de-AT',
    'zh-Hant', 'zh-Hans-CN', 'zh-Hant-TW', 'sr-Latn-RS', 'pt-BR', 'es-419', 'fr-CA', 'nds-NL', 'ar-001', 'it-Qabc', 'de-1996', 'en-fonipa-US',
    'e', 'english', 'en-u-ca-roc'],
};

// The same of names. Either may be null, where the code is refused.
const OF_NAMES = [
  ['a code in lower case, which is no name there', (type, code, here, there) => type !== 'language' && code !== code.toUpperCase()
    && (there === null || there === code)],
  ['extensions, which are left out there', (type, code) => /-u-/.test(code)],
  ['the language und, which is called root there', (type, code, here, there) => code === 'und' && there === 'root'],
  ['a dialect with a script and a region', (type, code) => type === 'language' && /^[a-z]+-[A-Z][a-z]{3}-[A-Z]/.test(code)],
  ['brackets inside of brackets, which are square there', (type, code, here, there) => here && there
    && here === there.replace(/\[/g, '(').replace(/\]/g, ')')],
  ['a language of five to eight letters, which is read there alone', (type, code, here) => here === null && /^[a-z]{5,8}$/.test(code)],
  ['a script that is called otherwise alone', (type, code) => type === 'script' && /^Han[st]$/.test(code)],
  ['a code that has an alias, which is looked up there', (type, code, here, there, tables) => tables.canonicalize(written(type, code))
    !== String(new Locale(written(type, code)))],
  ['a name of another version of CLDR', (type, code, here, there) => here && there && VERSIONS_DIFFER],
];
const written = (type, code) => (type === 'language' ? code : `und-${code}`);

function comparedNames(tables) {
  for (const locale of ['en', 'de', 'fr', 'ar', 'ja', 'zh-Hant']) {
    for (const [type, codes] of Object.entries(CODES)) {
      for (const style of ['long', 'short']) {
        const [here, there] = [DisplayNames, Intl.DisplayNames].map((made) => new made(locale, { type, style }));
        for (const code of codes) {
          const [ours, theirs] = [told(() => here.of(code)), told(() => there.of(code))];
          const kind = () => kindOf(OF_NAMES, type, code, ours, theirs, tables);
          if (ours !== theirs) count(kind(), `${type} ${code} in ${locale}, ${style}`, ours, theirs);
        }
      }
    }
  }
}

if (!cldrVersion()) {
  console.log('intl: not compared: the package has no data inside');
} else {
  const tables = Tables.cldr();
  comparedLocales(tables);
  comparedNames(tables);
  for (const fault of faults.slice(0, 20)) console.log(fault);
  for (const [kind, many] of counts) console.log(`intl: ${many} times: ${kind}`);
  console.log(`intl: ${COUNT} texts, ${faults.length} differences of no kind`);
  process.exitCode = faults.length ? 1 : 0;
}
