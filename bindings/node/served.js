'use strict';
// What serves a reader one of the identifiers that are available.
const { behind, listed, made, headerOf, listRefusal, overList, answered } = require('./asking.js');

const NOT_MET = 1;
const NONE = 'none'; // what is told where nothing is served
const OWN = Symbol('made by the package');

// How Node.js shows an object.
const SHOWN = Symbol.for('nodejs.util.inspect.custom');

/** What is available, by `tables.negotiator`. */
class Negotiator {
  #at;
  #word;
  #available;

  constructor(own, at, word, available) {
    if (own !== OWN) throw new TypeError('a negotiator is made by tables.negotiator');
    behind.mark(this);
    this.#at = at;
    this.#word = word;
    this.#available = Object.freeze(available);
  }

  /** The identifiers that are available, as they were handed in. */
  get available() {
    return this.#available;
  }

  /**
   * The places of the first request that an available identifier means, and of the first such identifier, as
   * `{ request, available }`; null where no request is met.
   */
  negotiate(requests) {
    const told = overList('negotiate', this.#at, this.#word, listed(requests));
    if (told === NOT_MET) return null;
    const [request, available] = made(told);
    return { request, available };
  }

  /** What the program icu_locale_cli answers to a line, by the words of a command. */
  answer(command, line) {
    return answered(this.#at, command, line, this.#word, this.#available);
  }

  [SHOWN](depth, options, inspect) {
    return `Negotiator of ${inspect(this.#available, options)}`;
  }

  /** Lets the list and the tables go. A second call does nothing. */
  close() {
    behind.calls.close(this.#at);
  }
}

/** What is available, by `tables.switcher`, and which of it is served. */
class Switcher {
  #negotiator;
  #otherwise;
  #words;

  constructor(own, negotiator, otherwise, words = '') {
    if (own !== OWN) throw new TypeError('a switcher is made by tables.switcher');
    this.#negotiator = negotiator;
    this.#otherwise = otherwise;
    this.#words = words;
  }

  /** The identifiers that are available, as they were handed in. */
  get available() {
    return this.#negotiator.available;
  }

  /** What is served for one header Accept-Language, for several or for none; the default where nothing is near enough. */
  serve(headers) {
    return this.#served(this.#told('serve', headerOf(headers)));
  }

  /** What is nearest to requests, the most wanted first; the default where nothing is near enough. */
  nearest(requests) {
    return this.#served(this.#asked('locales nearest', requests));
  }

  /**
   * What is nearest to requests, as `{ available, locale }`: its place, and the locale that formats for the reader, with the
   * region, the variants and the extensions of the request; null where nothing is near enough.
   */
  resolved(requests) {
    const told = this.#asked('locales resolved', requests);
    if (told === NONE) return null;
    const [place, locale] = told.split('\t');
    return { available: Number(place), locale };
  }

  [SHOWN](depth, options, inspect) {
    return `Switcher of ${inspect(this.available, options)}, or else ${inspect(this.#otherwise, options)}`;
  }

  #told(command, line) {
    return this.#negotiator.answer(`${this.#words}${command}`, line);
  }

  #asked(command, requests) {
    const list = listed(requests);
    try {
      return this.#told(command, list.join(' '));
    } catch (refused) {
      throw /^Invalid/.test(refused.code) ? listRefusal('locales', list) : refused;
    }
  }

  #served(told) {
    return told === NONE ? this.#otherwise : this.available[Number(told.split('\t')[0])];
  }

  /** Lets the list and the tables go. A second call does nothing. */
  close() {
    this.#negotiator.close();
  }
}

module.exports = { OWN, Negotiator, Switcher };
