'use strict';
// What the calls of the package hand over: texts, lists, headers and options. Nothing is read of them but what they are.
const { numbered, ofLine, noIdentifier, leftOut } = require('./refused.js');

const DONE = 0;
const LINE_REFUSED = 1;
const SHAPE = 6;
const TABLE = 8;
const LIST = 10;
const LIKELY = 'maximize'; // the command that needs what a list and `isSettled` need
const SYNTAXES = ['locales', 'bcp47', 'posix'];
const LARGEST = 65535; // threshold, and demotion
const LONG_ANSWER = 65536; // an answer that is longer leaves no room that is kept

// What the package asks: the calls of icu_locale.h, and what a platform does in its own way.
const behind = { calls: null, textsOfCldr: null, toldOfCldr: null, mark: () => {} };

/** Gives the package the calls and ways of a platform. */
function stand(ways) {
  Object.assign(behind, ways);
}

function text(it) {
  if (typeof it === 'string' || it instanceof Uint8Array) return it;
  throw new TypeError('a text is a string or a Uint8Array, as a Buffer is');
}

function string(it) {
  if (typeof it !== 'string') throw new TypeError('an identifier is a string');
  return it;
}

/** The options of a call: an object that has no other names. */
function optionsOf(options, ...names) {
  if (options === undefined) return {};
  if (options === null || typeof options !== 'object' || Array.isArray(options) || options instanceof Uint8Array) {
    throw new TypeError(`options are an object, which may have ${names.join(' and ')}`);
  }
  const other = Object.keys(options).find((it) => !names.includes(it));
  if (other !== undefined) throw new TypeError(`there is no option ${other} here; there is ${names.join(' and ')}`);
  return options;
}

function known(syntax) {
  if (!SYNTAXES.includes(syntax)) throw new RangeError('the syntaxes are locales, bcp47 and posix');
  return syntax;
}

/** The words of a command in a syntax. */
function wordsIn(command, options) {
  const { syntax = 'locales' } = optionsOf(options, 'syntax');
  return `${known(syntax)} ${command}`;
}

/** The word of a syntax, which is empty where none is named. */
function wordOf(options) {
  const { syntax } = optionsOf(options, 'syntax');
  return syntax === undefined ? '' : known(syntax);
}

// A threshold or a demotion.
function limit(name, number) {
  if (typeof number !== 'number') throw new TypeError(`${name} is a number`);
  if (!Number.isInteger(number) || number < 0 || number > LARGEST) {
    throw new RangeError(`${name} is a whole number from 0 to ${LARGEST}, and ${number} is none`);
  }
  return `${name} ${number} `;
}

/** The words that say what is near enough, each with a space after it, before a command that serves a reader. */
function matchingWords({ threshold, demotion, favorScript = false, orFirst = false }) {
  const limits = Object.entries({ threshold, demotion }).filter(([, number]) => number !== undefined);
  const words = limits.map(([name, number]) => limit(name, number)).join('');
  return `${words}${favorScript ? 'favor-script ' : ''}${orFirst ? 'or-first ' : ''}`;
}

function made(told) {
  if (typeof told === 'number') throw numbered(told);
  return told;
}

/** The identifiers of a list. In a line, one that is empty or holds a space would be none, or two. */
function listed(identifiers) {
  if (!Array.isArray(identifiers)) throw new TypeError('identifiers are handed in as an array');
  const list = Array.from(identifiers, string);
  const place = list.findIndex((it) => it === '' || it.includes(' '));
  if (place >= 0) throw noIdentifier(place, list[place]);
  return list;
}

/** Texts as one, with others between them. */
function joined(texts, between) {
  if (texts.map(text).every((it) => typeof it === 'string')) return texts.join(between);
  const coder = new TextEncoder();
  const parts = texts.map((it) => (typeof it === 'string' ? coder.encode(it) : it));
  const gap = coder.encode(between);
  const whole = new Uint8Array(parts.reduce((sum, it) => sum + it.length + gap.length, -gap.length));
  let end = 0;
  parts.forEach((it, place) => {
    if (place) whole.set(gap, end - gap.length);
    whole.set(it, end);
    end += it.length + gap.length;
  });
  return whole;
}

/** The text of one header: several are one, and none is empty. */
function headerOf(headers) {
  if (headers === undefined || headers === null) return '';
  return Array.isArray(headers) ? joined(headers, ', ') : text(headers);
}

/** Why a list is refused, in the syntax of a word: the first text that is no identifier. */
function listRefusal(word, list) {
  const [place] = made(behind.calls.listFault(word, list.join(' ')));
  return noIdentifier(place, list[place]);
}

/** The refusal of a number that a handle tells, by the words of a command. Of a table that is left out C tells the name. */
function refusalOf(number, held, command) {
  if (number !== TABLE) return numbered(number);
  const told = behind.calls.missing(held, command);
  return typeof told === 'string' ? leftOut(told, command) : numbered(told[0]);
}

/** What a call of icu_locale.h tells, by its name, that is handed the word of a syntax and a list. */
function overList(call, held, word, list) {
  const told = behind.calls[call](held, word, list.join(' '));
  if (told === LIST) throw listRefusal(word, list);
  if (told === TABLE) throw refusalOf(told, held, LIKELY);
  return told;
}

// Some bytes of a text.
function part(line, from, to) {
  const octets = typeof line === 'string' ? new TextEncoder().encode(line) : line;
  return new TextDecoder('utf-8', { ignoreBOM: true }).decode(octets.subarray(from, to));
}

/** Where bytes of a text are in it: in a string by its code units. */
function placesIn(line, bounds) {
  return typeof line === 'string' ? bounds.map((bound) => part(line, 0, bound).length) : bounds;
}

/** The refusal of a line. Of what is no locale identifier it has the first piece that none can have there, and its bounds. */
function lineRefusal(words, name, line) {
  const refused = ofLine(name, line);
  const bounds = words.startsWith('locales ') && name.startsWith('Invalid') ? behind.calls.fault(line) : undefined;
  if (!Array.isArray(bounds)) return refused;
  const [start, end] = placesIn(line, bounds);
  return Object.assign(refused, { start, end, subtag: part(line, ...bounds) });
}

/** What a handle answers to a line, by the words of a command. A negotiator's has the word of a syntax, and a list. */
function answered(held, command, line, word, list) {
  const told = behind.calls.answer(held, text(command), text(line));
  if (typeof told === 'string') {
    if (told.length > LONG_ANSWER) behind.calls.giveBack(held, ...(list ? [word, list.join(' ')] : []));
    return told;
  }
  const [number, answer] = told;
  const words = typeof command === 'string' ? command : new TextDecoder().decode(command);
  if (number === LINE_REFUSED) throw lineRefusal(words, answer.split('\t')[1], line);
  throw refusalOf(number, held, words);
}

module.exports = {
  DONE, LINE_REFUSED, SHAPE, LIST, LIKELY, LONG_ANSWER, behind, stand, text, string, optionsOf, wordsIn, wordOf, matchingWords, made, listed,
  joined, headerOf, listRefusal, refusalOf, overList, placesIn, answered,
};
