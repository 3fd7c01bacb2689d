'use strict';
// The calls of icu_locale.h by the addon, over texts. It is a package of its own, or where bindings/node/build has left it.
const fs = require('fs');
const path = require('path');

const HERE = path.join(__dirname, 'addon', 'icu_locale.node');
const calls = require(fs.existsSync(HERE) ? HERE : 'icu_locale_addon');

const COMMANDS = 100; // so many are kept
const kept = new Map();

function bytes(text) {
  return typeof text === 'string' ? Buffer.from(text) : text;
}

// The words of a command or a syntax are made into bytes once.
function wordsOf(command) {
  let words = kept.get(command);
  if (!words) {
    words = bytes(command);
    if (typeof command === 'string' && kept.size < COMMANDS) kept.set(command, words);
  }
  return words;
}

module.exports = {
  ...calls,
  open: (json) => calls.open(bytes(json)),
  supplement: (held, json) => calls.supplement(held, bytes(json)),
  available: (held, syntax, list) => calls.available(held, wordsOf(syntax), bytes(list)),
  negotiate: (held, syntax, requests) => calls.negotiate(held, wordsOf(syntax), bytes(requests)),
  listFault: (syntax, list) => calls.listFault(wordsOf(syntax), bytes(list)),
  fault: (text) => calls.fault(bytes(text)),
  answer: (held, command, line) => calls.answer(held, wordsOf(command), bytes(line)),
  missing: (held, command) => calls.missing(held, wordsOf(command)),
  giveBack: (held, ...list) => calls.giveBack(held, ...list.map(bytes)),
};
