'use strict';
// Tables of locale identifiers, over the calls of the package. index.d.ts says what each call takes.
const { refusal, numbered, ofLine } = require('./refused.js');
const {
  DONE, LINE_REFUSED, SHAPE, LIKELY, LONG_ANSWER, behind, text, string, optionsOf, wordsIn, wordOf, matchingWords, made, listed, joined, refusalOf,
  overList, answered,
} = require('./asking.js');
const { CHAINS, Codes, beforeMark, namedBy } = require('./codes.js');
const { OWN, Negotiator, Switcher } = require('./served.js');
const { inOrder } = require('./menu.js');
const { LOCALES, refuseLocale, damaged, spelled } = require('./cldr.js');

// The options that say what is near enough.
const MATCHING = ['threshold', 'demotion', 'favorScript', 'orFirst'];

// The default of what serves a reader.
function defaultOf(options) {
  const { default: otherwise = null } = optionsOf(options, 'default');
  return otherwise;
}

// What comes of a value that is there, or that is yet to come.
function after(value, next) {
  return value instanceof Promise ? value.then(next) : next(value);
}

// The tables of CLDR's two texts.
function opened({ folder, tables, supplement, flat }) {
  try {
    const made = Tables.fromJson(tables, { supplement });
    if (flat) made.lendNames(flat);
    return made;
  } catch (refused) {
    throw /^(Json|Shape)$/.test(refused.code) ? damaged(folder, refused.message) : refused;
  }
}

// The first of a locale's chain that is in a list.
function firstOfChain(base, list, locale) {
  try {
    return base.fallback(locale).map((it) => spelled(list, it)).find(Boolean) || refuseLocale(locale);
  } catch (refused) {
    return refuseLocale(locale);
  }
}

/** The locales by which CLDR has what some locales ask: each itself, or the first of its chain. */
function inChains(locales) {
  return after(behind.toldOfCldr(LOCALES), (list) => {
    const found = locales.map((it) => spelled(list, it));
    if (found.every(Boolean)) return found;
    return after(behind.textsOfCldr([]), (texts) => {
      const base = opened(texts);
      try {
        return locales.map((it, place) => found[place] || firstOfChain(base, list, it));
      } finally {
        base.close();
      }
    });
  });
}

/** The tables of CLDR's data, with names of a kind in some locales, as textsOf makes them. */
function openedOfCldr(locales, kind) {
  return after(behind.textsOfCldr(locales, kind), (texts) => {
    if (!texts.missing.length) return opened(texts);
    return after(inChains(locales), (found) => after(behind.textsOfCldr(found, kind), opened));
  });
}

/** The version of CLDR whose data is inside, as `41`; undefined where there is none, or CLDR does not tell it. */
function cldrVersion() {
  return after(behind.toldOfCldr('version'), ([version]) => version);
}

/** The locales that CLDR has names in, in the order of their texts. */
function cldrLocales() {
  return behind.toldOfCldr(LOCALES);
}

/** Tables, by `Tables.cldr` or `Tables.fromJson`. */
class Tables extends Codes {
  #at;
  #negotiator;

  constructor(own, at) {
    super();
    if (own !== OWN) throw new TypeError('tables are made by Tables.cldr, Tables.fromJson and Tables.borrow');
    behind.mark(this);
    this.#at = at;
  }

  /**
   * The tables of CLDR's data inside, with the names of some locales, or of `all`, and their supplement. In the place of a
   * locale that CLDR has no names in comes the first of its chain.
   */
  static cldr(locales = []) {
    return openedOfCldr(locales);
  }

  /** The tables of a JSON text, a string or its bytes, and their supplement of another one. */
  static fromJson(json, options) {
    const { supplement } = optionsOf(options, 'supplement');
    const texts = [json, ...(supplement === undefined ? [] : [supplement])].map(text);
    const at = made(behind.calls.open(texts[0]));
    const number = texts.length > 1 ? behind.calls.supplement(at, texts[1]) : DONE;
    if (number === DONE) return new Tables(OWN, at);
    behind.calls.close(at);
    throw numbered(number);
  }

  /** The same tables once more. They are in memory once. */
  share() {
    return new Tables(OWN, made(behind.calls.share(this.#at)));
  }

  /**
   * Lends names that lie in the flat form, in place of those lent before: bytes, which are copied once into the memory of the
   * calls, and stay there as long as tables have them. A name is asked of the tables' own rows first, and then of these.
   */
  lendNames(names) {
    if (!(names instanceof Uint8Array)) throw new TypeError('names are lent as a Uint8Array, as a Buffer is');
    if (this.#negotiator) this.#negotiator.close();
    this.#negotiator = undefined;
    const number = behind.calls.lendNames(this.#at, names);
    if (number === SHAPE) throw refusal('Shape', 'the bytes are no names in the flat form');
    if (number !== DONE) throw numbered(number);
  }

  /** The names of the tables themselves, without those that are lent to them, in the flat form. */
  flatNames() {
    const told = behind.calls.flatNames(this.#at);
    if (told === SHAPE) throw refusal('Shape', 'a key or a text of the names has more than 65,535 bytes');
    const names = made(told);
    if (names.length > LONG_ANSWER) behind.calls.giveBack(this.#at);
    return names;
  }

  /**
   * Lends the tables to other workers of this process: a number that may be posted to them, for `borrow`. The loan ends
   * where these tables are closed or collected; what was borrowed stays. The addon alone lends.
   */
  lend() {
    return made(behind.calls.lend(this.#at));
  }

  /** The tables that another worker has lent. They are in memory once. */
  static borrow(number) {
    if (typeof number !== 'bigint') throw new TypeError('a loan is a number of the type bigint, by tables.lend');
    return new Tables(OWN, made(behind.calls.borrow(number)));
  }

  /**
   * What serves a reader one of the identifiers that are available, an array of strings. It holds these tables too. The
   * option `syntax` says how these and the requests are read: as identifiers alone, or with extensions.
   */
  negotiator(available, options) {
    const word = wordOf(options);
    const list = listed(available);
    const at = made(overList('available', this.#at, word, list));
    return new Negotiator(OWN, at, word, list);
  }

  // What was last available is kept, so that it is read once.
  #over(available) {
    const list = listed(available);
    const kept = this.#negotiator;
    if (!kept || kept.available.length !== list.length || !list.every((it, place) => it === kept.available[place])) {
      this.#negotiator = this.negotiator(list);
    }
    return this.#negotiator;
  }

  /**
   * What serves a reader by the headers Accept-Language of a request. It holds these tables too. What it serves is one of
   * the available identifiers as it was handed in, or the default where none is near enough, as further options say.
   */
  switcher(available, options) {
    const { default: otherwise = null, ...others } = optionsOf(options, 'default', ...MATCHING);
    return new Switcher(OWN, this.negotiator(available), otherwise, matchingWords(others));
  }

  /**
   * What is served of the available identifiers, in their own spelling, for the headers Accept-Language of a request: one,
   * several or none. The default where none is near enough. The tables need match rules, which a supplement has. What was
   * last available is kept, so that it is read once.
   */
  serve(headers, available, options) {
    return new Switcher(OWN, this.#over(available), defaultOf(options)).serve(headers);
  }

  /**
   * What is nearest to requests, the most wanted first, of the available identifiers, in their own spelling. The default
   * where none is near enough. What was last available is kept, as `serve` does.
   */
  nearest(requests, available, options) {
    return new Switcher(OWN, this.#over(available), defaultOf(options)).nearest(requests);
  }

  /** How far an identifier that may be served is from one that is desired, by the match rules. */
  distance(desired, supported, options) {
    return Number(this.#told('distance', joined([desired, supported], ' '), options));
  }

  /** Whether two texts have one canonical form. */
  areSame(first, second, options) {
    const [one, other] = [first, second].map((it) => this.#form('canonicalize', it, options));
    return one === other;
  }

  /** Lets the tables go. A second call does nothing. */
  close() {
    this.#negotiator = undefined;
    behind.calls.close(this.#at);
  }

  /** What the program icu_locale_cli answers to a line, by the words of a command. */
  answer(command, line) {
    return answered(this.#at, command, line);
  }

  // The answer to a locale identifier in a syntax.
  #told(command, identifier, options) {
    return answered(this.#at, wordsIn(command, options), identifier);
  }

  #form(command, identifier, options) {
    return beforeMark(this.#told(command, identifier, options));
  }

  /** The maximal form: with the likely script and region. */
  maximize(identifier, options) {
    return this.#form('maximize', identifier, options);
  }

  /** The minimal form: the shortest with the same maximal form. */
  minimize(identifier, options) {
    const { favorScript = false, syntax } = optionsOf(options, 'favorScript', 'syntax');
    return this.#form(favorScript ? 'minimize-script' : 'minimize', identifier, { syntax });
  }

  /** The canonical form, or of an identifier alone and a value at `rg`, the two. */
  canonicalize(identifier, value) {
    if (text(identifier).includes(typeof identifier === 'string' ? '\t' : 9)) throw ofLine('InvalidSubtag', identifier);
    const isText = typeof value === 'string' || value instanceof Uint8Array;
    if (!isText) return this.#form('canonicalize', identifier, value);
    return beforeMark(this.answer('canonicalize', joined([identifier, value], '\t'))).split('\t');
  }

  /** The key of a locale in a store: texts that mean the same have one. Without extensions, that of the identifier alone. */
  key(identifier, options) {
    const { extensions = true, syntax } = optionsOf(options, 'extensions', 'syntax');
    return this.#form(extensions ? 'key' : 'identifier-key', identifier, { syntax });
  }

  /** `ltr`, `rtl` or null. */
  direction(identifier, options) {
    const told = this.#told('direction', identifier, options);
    return told === 'none' ? null : told;
  }

  /** The identifiers that a loader asks after one another, from this one to `und`. */
  fallback(identifier, options) {
    return this.#told('fallback', identifier, options).split(' ');
  }

  /**
   * The name, in the language of the preferences. What the tables have no name for is a subtag there. With `fallback` it is
   * in the first locale after the preferences that the tables have. Options may come in the place of the chain.
   */
  name(identifier, preferences, chain, options) {
    return this.nameParts(identifier, preferences, chain, options).name;
  }

  /** The same, as `{ name, isRaw }`: whether a part of it has no name, and is a subtag. */
  nameParts(identifier, preferences, chain, options) {
    if (chain !== undefined && typeof chain !== 'string') return this.nameParts(identifier, preferences, 'light', chain);
    const { fallback = false, syntax } = optionsOf(options, 'fallback', 'syntax');
    for (const locale of fallback ? this.fallback(string(preferences)) : []) {
      try {
        return this.#named(identifier, locale, chain, syntax);
      } catch (refused) {
        if (refused.code !== 'IdentifierNotFound') throw refused;
      }
    }
    return this.#named(identifier, preferences, chain, syntax);
  }

  #named(identifier, preferences, chain = 'light', syntax = undefined) {
    return namedBy(this, wordsIn('name', { syntax }), identifier, preferences, chain, CHAINS);
  }

  /**
   * The languages of a list for a menu, as `{ locale, name, own }`: the locale as it was handed in, its name in one
   * language, and in itself. They are in the order of their names by Intl.Collator, or else by code point.
   */
  menu(locales, language, chain, options) {
    if (chain !== undefined && typeof chain !== 'string') return this.menu(locales, language, 'light', chain);
    const { fallback } = optionsOf(options, 'fallback');
    const nameIn = (it, preferences) => this.name(it, preferences, chain, { fallback });
    const rows = listed(locales).map((locale) => ({ locale, name: nameIn(locale, language), own: nameIn(locale, locale) }));
    return inOrder(rows, this.canonicalize(language));
  }

  /** What the data calls itself, as `41` for that of CLDR 41; undefined where it has no name. */
  dataName() {
    const told = behind.calls.dataName(this.#at);
    if (typeof told === 'string') return told;
    if (told[0] === LINE_REFUSED) return undefined;
    throw numbered(told[0]);
  }

  /** Whether the likely tables are settled. It looks at each row. */
  isSettled() {
    const number = behind.calls.isSettled(this.#at);
    if (number > 1) throw refusalOf(number, this.#at, LIKELY);
    return number === 1;
  }
}

module.exports = { Tables, after, inChains, openedOfCldr, cldrVersion, cldrLocales };
