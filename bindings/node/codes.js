'use strict';
// What tables know of codes: which are valid, what each is called, which have a name, and exemplar characters.
const { string, wordsIn, placesIn } = require('./asking.js');
const { refusal, shown } = require('./refused.js');

// Which names are asked, in order: of whole identifiers and of languages, and of other subtags alone.
const CHAINS = ['tiny', ...['', 'short-', 'long-', 'menu-', 'short-menu-'].flatMap((it) => [`${it}light`, `${it}heavy`])];
const SCRIPT_CHAINS = ['tiny', 'light', 'heavy', 'short-heavy'];
const REGION_CHAINS = ['tiny', 'short-tiny', 'light', 'short-light'];
const VARIANT_CHAINS = ['heavy'];
const KINDS = ['languages', 'scripts', 'regions', 'variants'];
const SETS = ['main', 'auxiliary', 'punctuation', 'numbers', 'index'];
const VALID = 'valid'; // what is told of an identifier without a fault

/** What is before the mark of an answer. */
function beforeMark(answer) {
  return answer.slice(0, answer.lastIndexOf('\t'));
}

// A word of a command.
function word(choice) {
  if (typeof choice !== 'string') throw new TypeError('a chain, a kind and a set are strings');
  return choice;
}

// What is said of a command that is none, since what is chosen or the preferences are none.
function wrongChoice(kind, choice, choices, preferences) {
  return refusal('Command', choices.includes(choice)
    ? `the preferences ${shown(preferences)} are no identifier without variants`
    : `${shown(choice)} is no ${kind}; the ${kind}s are ${choices.join(', ')}`);
}

// A part of an identifier that is not valid, as it is told.
function invalidPart(told, identifier) {
  const [kind, its, status, ...bounds] = told.split(' ');
  const [start, end] = placesIn(identifier, bounds.map(Number));
  return { kind, text: its, status, start, end };
}

/** What a task of tables calls a text in the language of the preferences, by one of some chains: `{ name, isRaw }`. */
function namedBy(tables, task, it, preferences, chain, chains) {
  try {
    const told = tables.answer(`${task} ${word(chain)} ${string(preferences)}`, it);
    return { name: beforeMark(told), isRaw: told.endsWith('\tR') };
  } catch (refused) {
    if (refused.code === 'Command') throw wrongChoice('chain', chain, chains, preferences);
    if (refused.code !== 'IdentifierNotFound') throw refused;
    throw refusal(refused.code, `the tables were made without the locale ${shown(preferences)}`);
  }
}

/** The calls of tables about codes. What is asked is told by `answer`. */
class Codes {
  /** The parts of an identifier that are not valid, as `{ kind, text, status, start, end }`; none where all are. */
  validate(identifier, options) {
    const told = this.answer(wordsIn('validate', options), identifier);
    return told === VALID ? [] : told.split('\t').map((it) => invalidPart(it, identifier));
  }

  /** Whether an identifier is one, and each part of it is valid. */
  isValid(identifier, options) {
    try {
      return this.validate(identifier, options).length === 0;
    } catch (refused) {
      if (/^Invalid/.test(refused.code)) return false;
      throw refused;
    }
  }

  /** What a language alone is called. */
  languageName(language, preferences, chain = 'light') {
    return namedBy(this, 'language-name', language, preferences, chain, CHAINS);
  }

  /** What a script alone is called. Where the tables have no name for it, it is itself and raw. */
  scriptName(script, preferences, chain = 'light') {
    return namedBy(this, 'script-name', script, preferences, chain, SCRIPT_CHAINS);
  }

  /** What a region alone is called. Where the tables have no name for it, it is itself and raw. */
  regionName(region, preferences, chain = 'light') {
    return namedBy(this, 'region-name', region, preferences, chain, REGION_CHAINS);
  }

  /** What a variant alone is called. Where the tables have no name for it, it is itself and raw. */
  variantName(variant, preferences, chain = 'heavy') {
    return namedBy(this, 'variant-name', variant, preferences, chain, VARIANT_CHAINS);
  }

  /** The subtags of a kind that the tables have names for in a locale, in the order of their texts. */
  listed(kind, locale) {
    try {
      return this.answer(`list ${word(kind)} ${string(locale)}`, '').split(' ').filter(Boolean);
    } catch (refused) {
      throw refused.code === 'Command' ? wrongChoice('kind', kind, KINDS, locale) : refused;
    }
  }

  /** Whether a set of a locale's exemplar characters has a text: a character, or several that go together. */
  hasExemplar(set, locale, it) {
    try {
      return this.answer(`exemplars ${word(set)} ${string(locale)}`, it) === 'yes';
    } catch (refused) {
      throw refused.code === 'Command' ? wrongChoice('set', set, SETS, locale) : refused;
    }
  }
}

module.exports = { CHAINS, Codes, beforeMark, namedBy };
