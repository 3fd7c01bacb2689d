'use strict';
// Each refusal in words, long texts in messages, and what no call takes.
const assert = require('assert');
const fs = require('fs');
const { Tables, Negotiator, Switcher, Refused } = require('icu_locale');

const [example, supplement] = ['example', 'example-supplement'].map((it) => fs.readFileSync(require.resolve(`icu_locale/${it}.json`)));
const tables = Tables.fromJson(example, { supplement });
const circle = { aaa: 'bbb', bbb: 'aaa' };
const without = (...members) => {
  const kept = Object.entries(JSON.parse(example)).filter(([member]) => !members.includes(member));
  return Tables.fromJson(JSON.stringify(Object.fromEntries(kept)), { supplement });
};
const round = (members) => Tables.fromJson(example, { supplement: JSON.stringify(members) });
const aliases = { language_len2: { aa: 'bb', bb: 'aa' }, subdivision: { abcdefg: 'bcdefgh', bcdefgh: 'abcdefg' } };
const turning = Tables.fromJson(JSON.stringify({ ...JSON.parse(example), aliases }));
const closed = Tables.fromJson(example);
closed.close();
const leftOut = (member) => `Table: the tables leave out the member \`${member}\``;
const rules = `${leftOut('matching')}, which a supplement has`;
const unsettled = '{"likely_language":{"und":["en","Latn","US"],"language":{"xx":["Zzzz","DE"]}},"likely_script_region":{}}';

// A call, and the message of its refusal.
const REFUSED = [
  [() => closed.maximize('en'), 'Closed: the tables are closed'],
  [() => closed.isSettled(), 'Closed: the tables are closed'],
  [() => Tables.fromJson('{'), 'Json: the text is no JSON'],
  [() => Tables.fromJson('{"colour":1}'), 'Shape: the shape is not that of tables, a supplement or lent names'],
  [() => tables.answer('maximise', 'en'), 'Command: no command has these words'],
  [() => tables.answer('serve', 'en'), 'Negotiate: there is no list of what is available; tables.negotiator takes one'],
  [() => tables.negotiator(['en', 'e-']), 'List: what stands at place 1 is no identifier: "e-"'],
  [() => Tables.fromJson(unsettled).negotiator([]).negotiate([]),
    'Unsettled: the likely tables are not settled; those of tools/cldr-tables --settled are'],
  [() => tables.maximize('e'), 'InvalidLanguage: the text does not begin with a language: "e"'],
  [() => tables.maximize(Buffer.from('en-')), 'InvalidSubtag: a subtag is none, or stands where it may not: "en-"'],
  [() => turning.canonicalize('aa'), 'NoFixedPoint: the aliases lead round in a circle: "aa"'],
  [() => turning.canonicalize('en', 'abcdefg'),
    'NoSubdivisionFixedPoint: the aliases of subdivisions lead round in a circle: "en\\tabcdefg"'],
  [() => round({ keywords: { ca: circle } }).canonicalize('en-u-ca-aaa'),
    'NoValueFixedPoint: the aliases of values at a key of the extension `u` lead round in a circle: "en-u-ca-aaa"'],
  [() => round({ fields: { m0: circle } }).canonicalize('en-t-m0-aaa'),
    'NoFieldFixedPoint: the aliases of values at a key of the extension `t` lead round in a circle: "en-t-m0-aaa"'],
  [() => round({ parents: { aa: 'qbb', qbb: 'aa' } }).fallback('aa'),
    'Circle: the parents behind the locale lead round in a circle: "aa"'],
  [() => tables.name('it', 'de'), 'IdentifierNotFound: the tables were made without the locale "de"'],
  [() => tables.name('it', 'en', 'lihgt'), 'Command: "lihgt" is no chain; the chains are tiny, light, heavy, short-light, '
    + 'short-heavy, long-light, long-heavy, menu-light, menu-heavy, short-menu-light, short-menu-heavy'],
  [() => tables.name('it', 'en-fonipa'), 'Command: the preferences "en-fonipa" are no identifier without variants'],
  [() => tables.answer('name light de', 'it'),
    'IdentifierNotFound: the tables were made without the locale of the preferences: "it"'],
  [() => Tables.cldr(['no locale']), /^NoCldr: (CLDR has no locale "no locale"|this package has none of CLDR's data inside; .*)$/],
];
for (const [call, message] of REFUSED) {
  const [code] = message.source ? ['NoCldr'] : message.split(':');
  assert.throws(call, { name: 'Refused', code, message });
}

// what is left out: members of which the first is told, and a call
for (const [members, call] of [
  [['likely_language'], (it) => it.maximize('en')], [['likely_script_region'], (it) => it.maximize('en')],
  [['likely_language'], (it) => it.isSettled()], [['likely_script_region'], (it) => it.isSettled()],
  [['likely_language', 'aliases'], (it) => it.canonicalize('en')], [['likely_script_region', 'aliases'], (it) => it.serve('en', [])],
  [['likely_language'], (it) => it.negotiator([])], [['likely_script_region'], (it) => it.negotiator(['en'], { syntax: 'posix' })],
  [['likely_language'], (it) => it.distance('en', 'de')], [['likely_script_region'], (it) => it.fallback('en')],
  [['aliases'], (it) => it.canonicalize('en')], [['aliases'], (it) => it.key('en')], [['aliases'], (it) => it.serve('en', [])],
  [['aliases'], (it) => it.answer(Buffer.from('bcp47 identifier-key'), 'en')],
  [['direction'], (it) => it.direction('en')], [['likely_script_region', 'direction'], (it) => it.direction('en', { syntax: 'posix' })],
]) assert.throws(() => call(without(...members)), { name: 'Refused', code: 'Table', message: leftOut(members[0]) });
for (const options of [undefined, { supplement: '{"parents":{}}' }]) {
  const bare = Tables.fromJson(example, options);
  for (const call of [() => bare.serve(null, []), () => bare.nearest([], []), () => bare.distance('en', 'de')]) {
    assert.throws(call, { name: 'Refused', code: 'Table', message: rules });
  }
}

// a long text is cut
const long = 'é'.repeat(1 << 20);
for (const call of [
  () => tables.maximize(long), () => tables.maximize(Buffer.from(long)), () => tables.negotiator([long]),
  () => tables.name('it', `en-${long}`), () => tables.nearest([long], ['en']), () => tables.areSame('en', long), () => tables.answer(long, 'en'), () => Tables.cldr([long]),
  () => tables.canonicalize(`${long}\t`),
]) assert.throws(call, (fault) => fault instanceof Refused && fault.message.length < 200);

// options in the place of the chain, and raw parts
assert.strictEqual(tables.name('it', 'en-US', { fallback: true }), 'Italian');
assert.deepStrictEqual(tables.nameParts('it-Qabc-150', 'en'), { name: 'Italian (Qabc, Europe)', isRaw: true });
assert.deepStrictEqual(tables.nameParts('ku', 'en-US', 'menu-light', { fallback: true }), { name: 'Kurdish (Kurmanji)', isRaw: false });
assert.strictEqual(tables.menu(['en-US'], 'en', { fallback: true })[0].own, 'English (United States)');
assert.strictEqual(require('util').inspect(tables.switcher(['en'], { default: 'en' })), "Switcher of [ 'en' ], or else 'en'");
assert.strictEqual(require('util').inspect(tables.negotiator(['en', 'de'])), "Negotiator of [ 'en', 'de' ]");

// what no call takes
const { implementation, load } = require('icu_locale');
for (const made of [Tables, Negotiator, Switcher]) {
  assert.throws(() => new made(), { name: 'TypeError', message: /(are|is) made by/ });
  assert.throws(() => made(), TypeError);
}
for (const wrong of ['posix', null, 5, ['posix'], Buffer.from('posix'), { sintax: 'posix' }, { syntax: 'posix', more: 1 }]) {
  for (const call of [
    () => tables.maximize('de', wrong), () => tables.minimize('de', wrong), () => tables.direction('de', wrong),
    () => tables.fallback('de', wrong), () => tables.name('de', 'en', 'light', wrong), () => tables.distance('de', 'en', wrong),
    () => tables.areSame('de', 'en', wrong), () => Tables.fromJson(example, wrong), () => tables.serve('de', ['de'], wrong),
    () => tables.nearest(['de'], ['de'], wrong), () => tables.switcher(['de'], wrong), () => tables.negotiator(['de'], wrong), () => tables.menu(['en'], 'en', 'light', wrong),
  ]) assert.throws(call, { name: 'TypeError', message: /^(options are an object, which|there is no option) .+/ });
}
for (const wrong of [null, 5, ['usca'], { sintax: 'posix' }]) assert.throws(() => tables.canonicalize('de', wrong), TypeError);
for (const headers of [null, undefined, '', []]) assert.strictEqual(tables.serve(headers, ['en'], { default: 'en' }), 'en');

load().then((it) => {
  assert.strictEqual(it, require('icu_locale'));
  console.log(`refusals: as they should be, over the ${implementation}`);
});
