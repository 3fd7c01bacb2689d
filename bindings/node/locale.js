'use strict';
// A locale as an object: its parts, as the proved library tells them. index.d.ts says what each is.
const { optionsOf, wordsIn } = require('./asking.js');
const { refusal, shown } = require('./refused.js');
const { Tables } = require('./tables.js');

// What asks no table is asked of tables that hold nothing, and likely subtags of CLDR's.
let withoutTables;
let ofCldr;
// The options of Intl.Locale that stand in the place of a part, and those of a value at a key of the extension `u`.
const PARTS = ['language', 'script', 'region'];
const KEYS = {
  calendar: 'ca', collation: 'co', hourCycle: 'hc', caseFirst: 'kf', numeric: 'kn', numberingSystem: 'nu',
};

function partsOf(text, options) {
  withoutTables = withoutTables || Tables.fromJson('{}');
  return withoutTables.answer(wordsIn('parts', options), text).split('\t');
}

function members(part) {
  return Object.freeze(part ? part.split(' ') : []);
}

// The rows of keywords, fields or other extensions: what is before the first `=` of each, and what is behind it.
function rows(part) {
  return Object.freeze(Object.fromEntries(members(part).map((row) => {
    const [key, ...value] = row.split('=');
    return [key, value.join('=')];
  })));
}

// The text with the parts and the values of options, and the syntax in which it is read.
function withOptions(text, options) {
  const { syntax, ...others } = optionsOf(options, 'syntax', ...PARTS, ...Object.keys(KEYS));
  const wanted = Object.entries(others).filter(([, value]) => value !== undefined);
  if (!wanted.length) return [text, { syntax }];
  const parts = wanted.filter(([name]) => PARTS.includes(name)).map(([name, value]) => [name, valueOf(value)]);
  const values = wanted.filter(([name]) => name in KEYS).map(([name, value]) => [KEYS[name], valueOf(value)]);
  const its = new Locale(written(new Locale(text, { syntax }), Object.fromEntries(parts), Object.fromEntries(values)));
  const isOther = ([name, value], found) => value.toLowerCase().replace(/^true$/, '') !== (found || '').toLowerCase();
  const wrong = parts.find((row) => isOther(row, its[row[0]])) || values.find((row) => isOther(row, its.keywords[row[0]]));
  if (wrong) throw refusal('InvalidSubtag', `${shown(wrong[1])} is not read as ${wrong[0]}`);
  return [String(its), undefined];
}

// The text of a locale with other parts, and with further keywords.
function written(its, parts, values) {
  const { language, script, region } = { language: its.language, script: its.script, region: its.region, ...parts };
  const rows = (pairs) => Object.entries(pairs).flat();
  const unicode = [...its.attributes, ...rows({ ...its.keywords, ...values })];
  const transform = [its.transformLanguage, ...rows(its.fields)];
  const behindLetter = (letter, pieces) => (pieces.some(Boolean) ? [letter, ...pieces] : []);
  return [
    language, script, region, ...its.variants, ...rows(its.extensions), ...behindLetter('t', transform),
    ...behindLetter('u', unicode), ...behindLetter('x', [its.privateUse]),
  ].filter(Boolean).join('-');
}

// A value of an option: true is the one that is not written.
function valueOf(value) {
  if (typeof value === 'boolean') return value ? '' : 'false';
  if (typeof value !== 'string' || !value) throw new TypeError('an option of a locale is a text');
  return value;
}

/** The tables of CLDR's data by which a locale is maximized, where none are handed in. */
function tablesOfCldr() {
  const opened = ofCldr || Tables.cldr([]);
  if (opened instanceof Promise) {
    opened.catch(() => {});
    throw refusal('NotLoaded', 'here data is fetched: hand in tables, by await Tables.cldr()');
  }
  ofCldr = opened;
  return opened;
}

/** A locale identifier with its parts. It does not change. */
class Locale {
  #text;

  constructor(text, options) {
    const [whole, language, script, region, variants, attributes, keywords, transform, fields, others, privateUse] =
      partsOf(...withOptions(text, options));
    this.#text = whole;
    this.language = language;
    this.script = script || undefined;
    this.region = region || undefined;
    this.variants = members(variants);
    this.attributes = members(attributes);
    this.keywords = rows(keywords);
    this.transformLanguage = transform || undefined;
    this.fields = rows(fields);
    this.extensions = rows(others);
    this.privateUse = privateUse || undefined;
    Object.freeze(this);
  }

  /** Language, script, region and variants. */
  get baseName() {
    return [this.language, this.script, this.region, ...this.variants].filter(Boolean).join('-');
  }

  /** The calendar that is asked for, as `buddhist`. */
  get calendar() {
    return this.keywords.ca;
  }

  /** The order of texts that is asked for, as `phonebk`. */
  get collation() {
    return this.keywords.co;
  }

  /** `h11`, `h12`, `h23` or `h24`. */
  get hourCycle() {
    return this.keywords.hc;
  }

  /** The digits that are asked for, as `latn`. */
  get numberingSystem() {
    return this.keywords.nu;
  }

  /** `upper`, `lower` or `false`: which case comes first in an order. */
  get caseFirst() {
    return this.keywords.kf;
  }

  /** Whether digits are put in order as numbers. */
  get numeric() {
    return this.keywords.kn === '';
  }

  /** The locale with its likely script and region, by CLDR's tables inside, or by others. */
  maximize(tables = tablesOfCldr()) {
    return new Locale(tables.maximize(this.#text));
  }

  /** The shortest locale that means the same. */
  minimize(tables = tablesOfCldr()) {
    return new Locale(tables.minimize(this.#text));
  }

  /** Which way the likely script runs, as `{ direction }`, which is `ltr`, `rtl` or undefined. */
  getTextInfo(tables = tablesOfCldr()) {
    return { direction: tables.direction(this.#text) || undefined };
  }

  /** The whole, as it is written: two locales are equal exactly if they are written alike. */
  toString() {
    return this.#text;
  }

  /** The whole, as it is written. */
  toJSON() {
    return this.#text;
  }

  [Symbol.for('nodejs.util.inspect.custom')]() {
    return `Locale '${this.#text}'`;
  }
}

module.exports = { Locale };
