'use strict';
// The order of a menu.

function byCodePoint(one, other) {
  const [first, second] = [one, other].map((it) => Array.from(it, (character) => character.codePointAt(0)));
  const place = first.findIndex((it, at) => it !== second[at]);
  return place < 0 ? first.length - second.length : first[place] - (place < second.length ? second[place] : -1);
}

// How the platform orders texts of a language, or null where it knows none.
function ofPlatform(language) {
  try {
    return Intl.Collator.supportedLocalesOf(language).length ? new Intl.Collator(language).compare : null;
  } catch (unknown) {
    return null; // there is no Intl, or it reads the language otherwise
  }
}

/** Rows in the order of their names, as the platform has it for a language. */
function inOrder(rows, language) {
  const compare = ofPlatform(language) || byCodePoint;
  return rows.sort((one, other) => compare(one.name, other.name) || byCodePoint(one.name, other.name));
}

module.exports = { inOrder };
