'use strict';
// Names by the ways of Intl.DisplayNames, over CLDR's data.
const { optionsOf } = require('./asking.js');
const { refusal } = require('./refused.js');
const { Locale } = require('./locale.js');
const { after, inChains, openedOfCldr } = require('./tables.js');

// Each option, with what it may be; the first is meant where it is left out.
const OPTIONS = {
  type: ['language', 'region', 'script'],
  style: ['long', 'short', 'narrow'],
  fallback: ['code', 'none'],
  languageDisplay: ['dialect', 'standard'],
};
// Which names are asked: the medium ones, or the short ones first.
const CHAINS_OF = {
  language: ['heavy', 'short-heavy'], region: ['light', 'short-light'], script: ['heavy', 'short-heavy'],
};
const MADE = Symbol('made by DisplayNames.load');

// The options of Intl.DisplayNames, each with what it is.
function chosenOf(options) {
  const wanted = optionsOf(options, ...Object.keys(OPTIONS));
  if (wanted.type === undefined) throw new TypeError('DisplayNames wants the option type: language, region or script');
  return Object.fromEntries(Object.entries(OPTIONS).map(([name, values]) => {
    const value = wanted[name] === undefined ? values[0] : wanted[name];
    if (!values.includes(value)) throw new RangeError(`${name} is one of ${values.join(', ')}`);
    return [name, value];
  }));
}

// The tables of a locale, or of the first of its chain that CLDR has names in, and by which name it is there.
function openedIn(locale, { type, languageDisplay }) {
  const kind = type === 'language' ? languageDisplay : 'parts';
  return after(inChains([locale]), ([name]) => after(openedOfCldr([name], kind), (tables) => [tables, name]));
}

// The same of the first of a list that has such names.
function openedFor(locales, options) {
  const [wanted, ...others] = Array.isArray(locales) ? locales : [locales];
  const next = (refused) => {
    if (refused.code !== 'NoCldr' || !others.length) throw refused;
    return openedFor(others, options);
  };
  try {
    const opened = openedIn(new Locale(String(wanted)).baseName, options);
    return opened instanceof Promise ? opened.catch(next) : opened;
  } catch (refused) {
    return next(refused);
  }
}

/** Names of languages, regions or scripts in one language. */
class DisplayNames {
  #tables;
  #locale;
  #options;
  #chain;

  constructor(locales, options, own) {
    this.#options = chosenOf(options);
    const opened = own && own[MADE] ? own[MADE] : openedFor(locales, this.#options);
    if (opened instanceof Promise) {
      opened.catch(() => {});
      throw refusal('NotLoaded', 'here data is fetched: await DisplayNames.load(locales, options)');
    }
    [this.#tables, this.#locale] = opened;
    this.#chain = CHAINS_OF[this.#options.type][this.#options.style === 'long' ? 0 : 1];
    Object.freeze(this);
  }

  /** The same, once the data has been fetched. */
  static async load(locales, options) {
    return new DisplayNames(locales, options, { [MADE]: await openedFor(locales, chosenOf(options)) });
  }

  /** The name of a code. Where there is none it is the code as it is written, or undefined by the option `fallback`. */
  of(code) {
    const { name, isRaw } = this.#named(String(code));
    return isRaw && this.#options.fallback === 'none' ? undefined : name;
  }

  #named(code) {
    const { type } = this.#options;
    if (type === 'region') return this.#tables.regionName(code, this.#locale, this.#chain);
    if (type === 'script') return this.#tables.scriptName(code, this.#locale, this.#chain);
    return this.#tables.nameParts(String(new Locale(code)), this.#locale, this.#chain);
  }

  /** What was chosen. */
  resolvedOptions() {
    const { type, languageDisplay, ...others } = this.#options;
    return { locale: this.#locale, type, ...others, ...(type === 'language' ? { languageDisplay } : {}) };
  }
}

module.exports = { DisplayNames };
