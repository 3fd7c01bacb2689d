'use strict';
// Why a call gives no answer, in words.

const LONGEST = 60; // of a text that is shown
const EXEMPLARS = 'exemplars'; // the table of which sets of locales are left out
const OF_SUPPLEMENT = ['matching', 'validity']; // tables that a supplement has

// The numbers of icu_locale.h, and the one below 0 of a loan that there is not.
const NUMBERS = {
  2: ['Closed', 'the tables are closed'],
  4: ['Memory', 'memory was asked for and refused'],
  5: ['Json', 'the text is no JSON'],
  6: ['Shape', 'the shape is not that of tables, a supplement or lent names'],
  7: ['Command', 'no command has these words'],
  8: ['Table', 'the tables leave out one that is needed'],
  9: ['Negotiate', 'there is no list of what is available; tables.negotiator takes one'],
  10: ['List', 'the list has what is no identifier'],
  11: ['Unsettled', 'the likely tables are not settled; those of tools/cldr-tables --settled are'],
  12: ['Shared', 'the tables are held once more, so that they get no other supplement and no other names'],
  '-1': ['NoLoan', 'the module for WebAssembly lends no tables to another worker, so each opens its own'],
};

// The refusals of a line.
const OF_LINES = {
  InvalidLanguage: 'the text does not begin with a language',
  InvalidSubtag: 'a subtag is none, or stands where it may not',
  InvalidText: 'the bytes are no text of UTF-8',
  NoFixedPoint: 'the aliases lead round in a circle',
  NoSubdivisionFixedPoint: 'the aliases of subdivisions lead round in a circle',
  NoValueFixedPoint: 'the aliases of values at a key of the extension `u` lead round in a circle',
  NoFieldFixedPoint: 'the aliases of values at a key of the extension `t` lead round in a circle',
  Circle: 'the parents behind the locale lead round in a circle',
  IdentifierNotFound: 'the tables were made without the locale of the preferences',
};

/** A call that gives no answer. `code` names the refusal; `place` is that of what is no identifier in a list. */
class Refused extends Error {
  constructor(code, message = code, place = undefined) {
    super(message);
    this.name = 'Refused';
    this.code = code;
    if (place !== undefined) this.place = place;
  }
}

/** A text in a message: a long one is cut. */
function shown(text) {
  const start = typeof text === 'string' ? text : new TextDecoder().decode(text.subarray(0, 4 * LONGEST));
  return start.length <= LONGEST ? JSON.stringify(start) : `${JSON.stringify(start.slice(0, LONGEST))}..`;
}

/** The refusal of a code, with its words. */
function refusal(code, words, place) {
  return new Refused(code, `${code}: ${words}`, place);
}

/** The refusal of a number of icu_locale.h. */
function numbered(number) {
  return refusal(...NUMBERS[number]);
}

/** The refusal of a line, by its name. */
function ofLine(name, line) {
  return refusal(name, `${OF_LINES[name] || 'the line is refused'}: ${shown(line)}`);
}

/** The refusal of what is no identifier in a list. */
function noIdentifier(place, identifier) {
  return refusal('List', `what stands at place ${place} is no identifier: ${shown(identifier)}`, place);
}

/** The refusal of a command by its words, whose tables leave out a member. */
function leftOut(member, command) {
  const [set, locale] = command.split(' ').slice(-2);
  const where = member === EXEMPLARS ? `: the set ${set} of the locale ${locale}` : '';
  const source = OF_SUPPLEMENT.includes(member) ? ', which a supplement has' : '';
  return refusal('Table', `the tables leave out the member \`${member}\`${where}${source}`);
}

module.exports = { Refused, shown, refusal, numbered, ofLine, noIdentifier, leftOut };
