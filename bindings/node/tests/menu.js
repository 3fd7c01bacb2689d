'use strict';
// Menus: their rows, and their order.
const assert = require('assert');
const fs = require('fs');
const { Tables } = require('icu_locale');

// Tables that have names of languages in some locales.
function named(names) {
  const pattern = { pattern: [0, ' (', 1, ')'], separator: [0, ', ', 1] };
  const essentials = Object.fromEntries(Object.keys(names).map((it) => [it, pattern]));
  const likely = JSON.parse(fs.readFileSync(require.resolve('icu_locale/example.json')));
  return Tables.fromJson(JSON.stringify({ ...likely, names: { 'language/medium/tiny': names }, essentials }));
}

const tables = named({
  en: { en: 'English', de: 'German', sv: 'Österreichisch', zu: 'zulu', tlh: 'Zb' },
  de: { en: 'Englisch', de: 'Deutsch' }, sv: { sv: 'svenska', zu: 'zz', en: 'Ö' }, zu: { zu: 'isiZulu' },
  tlh: { zu: '\u{1f600}', sv: '\uff5a', en: 'a', de: 'B', tlh: 'tlhIngan' },
});
assert.deepStrictEqual(tables.menu(['de', 'EN', 'sv'], 'en'), [
  { locale: 'EN', name: 'English', own: 'English' }, { locale: 'de', name: 'German', own: 'Deutsch' },
  { locale: 'sv', name: 'Österreichisch', own: 'svenska' },
]);
const order = (list, language) => tables.menu(list, language).map((it) => it.locale);
assert.deepStrictEqual(order(['zu', 'tlh', 'sv', 'en'], 'en'), ['en', 'sv', 'tlh', 'zu']); // by code point: en, tlh, zu, sv
assert.deepStrictEqual(order(['en', 'zu'], 'sv'), ['zu', 'en']); // in Swedish Ö comes after z
assert.deepStrictEqual(order(['zu', 'sv', 'en', 'de'], 'tlh'), ['de', 'en', 'sv', 'zu']); // by code point, not by unit of UTF-16
assert.deepStrictEqual(tables.menu([], 'en'), []);
assert.deepStrictEqual(tables.menu(['de-AT'], 'en', 'light', { fallback: true }), [
  { locale: 'de-AT', name: 'German (AT)', own: 'Deutsch (AT)' },
]);
assert.throws(() => tables.menu(['de-AT'], 'en'), { code: 'IdentifierNotFound', message: /"de-AT"$/ });
assert.throws(() => tables.menu(['en'], 'fr'), { code: 'IdentifierNotFound' });
assert.throws(() => tables.menu(['e'], 'en'), { code: 'InvalidLanguage' });
assert.throws(() => tables.menu(['en', ''], 'en'), { code: 'List', place: 1 });
for (const wrong of ['en', 5, null, [5]]) assert.throws(() => tables.menu(wrong, 'en'), TypeError);
assert.throws(() => tables.menu(['en'], 5), TypeError);
console.log('menu: as it should be');
