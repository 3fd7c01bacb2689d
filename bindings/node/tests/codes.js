'use strict';
// Codes: which are valid, their names, lists of them, exemplar characters, and the name of the data. What is wanted stands in
// CLDR's files: common/validity, common/bcp47, common/main and common/dtd.
const assert = require('assert');
const fs = require('fs');
const { Tables, Refused, cldrVersion } = require('icu_locale');

const [example, supplement] = ['example', 'example-supplement'].map((it) => fs.readFileSync(require.resolve(`icu_locale/${it}.json`)));
const plain = Tables.fromJson(example, { supplement });
// Some rows of validity/*.xml and of bcp47/*.xml.
const validity = {
  language: { regular: 'de en', deprecated: 'iw' }, script: { regular: 'Hant Latn', deprecated: 'Qaai' },
  region: { regular: 'DE US', deprecated: 'DD', reserved: 'QM~N QP~T QV~Z' }, variant: { regular: '1996 fonipa' },
  keywords: { ca: { types: { regular: 'buddhist', deprecated: 'islamicc' } }, hc: { types: { regular: 'h11~2 h23~4' } } },
  fields: { m0: { types: { regular: 'prprname' }, kind: 'date' } },
};
const tables = Tables.fromJson(example, { supplement: JSON.stringify({ cldr: '41', validity }) });

// An identifier, and what of it is not valid: here, and in all of CLDR.
const REPORTS = [
  ['en'], ['de-Latn-DE-1996'], ['EN_latn_us'], ['en-u-ca-buddhist-hc-h23'], ['de-t-en-m0-prprname'], ['en-x-mine'],
  ['de-DD', ['region', 'DD', 'deprecated', 3, 5]], ['en_qx', ['region', 'QX', 'reserved', 3, 5]],
  ['IW', ['language', 'iw', 'deprecated', 0, 2]], ['en-Qaai', ['script', 'Qaai', 'deprecated', 3, 7]],
  ['xx-Latm-US', ['language', 'xx', 'unlisted', 0, 2], ['script', 'Latm', 'unlisted', 3, 7]],
  ['de-1996-abcde', ['variant', 'abcde', 'unlisted', 8, 13]],
  ['en-u-ca-islamicc-hc-h99', ['keyword', 'ca-islamicc', 'deprecated', 5, 16], ['keyword', 'hc-h99', 'unlisted', 17, 23]],
  ['en-u-attr', ['attribute', 'attr', 'unlisted', 5, 9]], ['en-a-b1', ['extension', 'a-b1', 'unlisted', 3, 7]],
  ['de-t-en-m0-names', ['field', 'm0-names', 'unlisted', 8, 16]],
];
const part = ([kind, text, status, start, end]) => ({ kind, text, status, start, end });

function reports(over) {
  for (const [text, ...wanted] of REPORTS) {
    for (const each of [text, Buffer.from(text), new TextEncoder().encode(text)]) {
      assert.deepStrictEqual(over.validate(each), wanted.map(part), text);
    }
    assert.strictEqual(over.isValid(text), !wanted.length);
  }
}

reports(tables);
reports(tables.share());
assert.deepStrictEqual(tables.validate('de_DD', { syntax: 'posix' }), [part(['region', 'DD', 'deprecated', 3, 5])]);
assert.deepStrictEqual(tables.validate('de_DD.x_dd', { syntax: 'posix' }), [part(['region', 'DD', 'deprecated', 3, 5])]);
// what is no piece of the text has the whole as its place: code units of a string, and bytes of others
for (const [text, length] of [['xx.é😀@cyrillic', 15], [Buffer.from('xx.é😀@cyrillic'), 18]]) {
  const wanted = [['language', 'xx', 'unlisted', 0, 2], ['script', 'Cyrl', 'unlisted', 0, length]];
  assert.deepStrictEqual(tables.validate(text, { syntax: 'posix' }), wanted.map(part));
}
assert.deepStrictEqual(tables.validate('i-klingon', { syntax: 'bcp47' }), [part(['language', 'tlh', 'unlisted', 0, 9])]);
assert.strictEqual(tables.isValid('en_US.UTF-8@latin', { syntax: 'posix' }), true);
for (const [text, code] of [['', 'InvalidLanguage'], ['english', 'InvalidLanguage'], ['en-', 'InvalidSubtag'], ['\ud800', 'InvalidLanguage']]) {
  assert.throws(() => tables.validate(text), { name: 'Refused', code });
  assert.strictEqual(tables.isValid(text), false);
}
assert.throws(() => tables.validate('en-Latm1-US'), { code: 'InvalidSubtag', start: 9, end: 11, subtag: 'US' });
for (const call of ['validate', 'isValid']) {
  assert.throws(() => tables[call]('en', { syntax: 'utf8' }), RangeError);
  assert.throws(() => plain[call]('en'), { code: 'Table', message: 'Table: the tables leave out the member `validity`, which a supplement has' });
}

// a call, what it names, in which locale and by which chain, and the name; it is raw where there is none
const SMALL = [
  ['regionName', 'us', 'en', 'light', 'United States'], ['regionName', 'US', 'EN', 'short-light', 'US'], ['regionName', 'US', 'de', 'light'],
  ['scriptName', 'LATN', 'en', 'light', 'Latin'], ['variantName', 'FONIPA', 'en', 'heavy', 'IPA Phonetics'],
  ['languageName', 'it', 'en', 'light', 'Italian'], ['languageName', 'ku', 'en', 'menu-light', 'Kurdish (Kurmanji)'], ['languageName', 'tlh', 'en', 'light'],
];
const OF_CLDR = [
  ['languageName', 'de', 'en', 'light', 'German'], ['languageName', 'ZH', 'en', 'long-light', 'Mandarin Chinese'],
  ['languageName', 'zh', 'en', 'menu-light', 'Chinese, Mandarin'], ['languageName', 'en', 'de', 'tiny', 'Englisch'],
  ['scriptName', 'latn', 'de', 'light', 'Lateinisch'], ['scriptName', 'Hans', 'en', 'light', 'Simplified'],
  ['scriptName', 'Xsux', 'en', 'heavy', 'Sumero-Akkadian Cuneiform'], ['scriptName', 'Xsux', 'en', 'short-heavy', 'S-A Cuneiform'],
  ['scriptName', 'Qabc', 'en', 'heavy'], ['regionName', 'us', 'en', 'light', 'United States'], ['regionName', 'US', 'en', 'short-light', 'US'],
  ['regionName', 'GB', 'de', 'short-light', 'UK'], ['regionName', 'GB', 'de', 'short-tiny', 'UK'],
  ['regionName', '419', 'de', 'light', 'Lateinamerika'], ['regionName', 'US', 'en', 'tiny', 'United States'], ['regionName', 'QX', 'en', 'light'],
  ['variantName', '1996', 'de', 'heavy', 'Neue deutsche Rechtschreibung'], ['variantName', 'fonipa', 'en', 'heavy', 'IPA Phonetics'],
  ['variantName', 'abcde', 'en', 'heavy'],
];

function names(over, rows) {
  for (const [call, subtag, locale, chain, name] of rows) {
    assert.deepStrictEqual(over[call](subtag, locale, chain), { name: name || subtag, isRaw: !name }, `${call} ${subtag} in ${locale}`);
  }
}

names(plain, SMALL);
assert.deepStrictEqual(plain.regionName(Buffer.from('us'), 'en'), { name: 'United States', isRaw: false });
assert.deepStrictEqual(plain.variantName('fonipa', 'en').name, 'IPA Phonetics');
for (const [call, code, wrong] of [
  ['languageName', 'InvalidLanguage', ['', 'de-AT', 'Latn', 'e']], ['scriptName', 'InvalidSubtag', ['', 'US', 'Latn-US', 'Lat1']],
  ['regionName', 'InvalidSubtag', ['', 'USA', 'Latn', 'US-fonipa', ' US', Buffer.of(255)]],
  ['variantName', 'InvalidSubtag', ['', 'US', 'abc', 'fonipa-1996']],
]) {
  for (const each of wrong) assert.throws(() => plain[call](each, 'en'), { name: 'Refused', code });
  for (const preferences of ['', 'e', 'en-fonipa', 'en en']) {
    const message = `Command: the preferences ${JSON.stringify(preferences)} are no identifier without variants`;
    assert.throws(() => plain[call]('US', preferences), { code: 'Command', message });
  }
  assert.throws(() => plain[call]('US', 'en', 'short-menu'), { code: 'Command', message: /^Command: "short-menu" is no chain; the chains are / });
  for (const preferences of [5, null, undefined, ['en'], Buffer.from('en')]) assert.throws(() => plain[call]('US', preferences), TypeError);
  for (const chain of [5, null, ['light'], { fallback: true }]) assert.throws(() => plain[call]('US', 'en', chain), TypeError);
  for (const it of [5, null, undefined, ['US']]) assert.throws(() => plain[call](it, 'en'), TypeError);
}
assert.throws(() => plain.regionName('US', 'en', 'heavy'),
  { message: 'Command: "heavy" is no chain; the chains are tiny, short-tiny, light, short-light' });
assert.throws(() => plain.languageName('it', 'de'), { message: 'IdentifierNotFound: the tables were made without the locale "de"' });

// lists
for (const [kind, wanted] of [['languages', ['en', 'it', 'ku']], ['scripts', ['Latn']], ['regions', ['150', 'US']], ['variants', ['fonipa']]]) {
  assert.deepStrictEqual(plain.listed(kind, 'en'), wanted);
  assert.deepStrictEqual(plain.listed(kind, 'de'), []);
}
for (const locale of ['', 'e', 'en-', 'en-fonipa']) {
  const message = `Command: the preferences ${JSON.stringify(locale)} are no identifier without variants`;
  assert.throws(() => plain.listed('regions', locale), { message });
}
assert.throws(() => plain.listed('region', 'en'),
  { message: 'Command: "region" is no kind; the kinds are languages, scripts, regions, variants' });
for (const wrong of [5, null, undefined, ['en']]) {
  for (const call of [() => plain.listed(wrong, 'en'), () => plain.listed('regions', wrong), () => plain.hasExemplar(wrong, 'en', 'a'),
    () => plain.hasExemplar('main', wrong, 'a'), () => plain.hasExemplar('main', 'en', wrong), () => plain.validate(wrong), () => plain.isValid(wrong)]) {
    assert.throws(call, TypeError);
  }
}

// exemplar characters
for (const [text, wanted] of [['a', true], ['z', true], ['ng', true], ['A', false], ['ab', false], ['', false], ['a\n', false],
  [Buffer.from('a'), true], ['ä', false]]) assert.strictEqual(plain.hasExemplar('main', 'en', text), wanted, String(text));
assert.throws(() => plain.hasExemplar('main', 'en', Buffer.of(255)), { name: 'Refused', code: 'InvalidText', message: /no text of UTF-8/ });
assert.throws(() => plain.hasExemplar('main', 'de', 'a'),
  { code: 'Table', message: 'Table: the tables leave out the member `exemplars`: the set main of the locale de' });
assert.throws(() => plain.hasExemplar('best', 'en', 'a'),
  { message: 'Command: "best" is no set; the sets are main, auxiliary, punctuation, numbers, index' });
assert.throws(() => plain.hasExemplar('main', 'en-fonipa', 'a'), { message: 'Command: the preferences "en-fonipa" are no identifier without variants' });

// the name of the data
const long = 'x'.repeat(1000);
for (const [members, wanted] of [[{ cldr: '41' }, '41'], [{}, undefined], [{ cldr: '' }, ''], [{ cldr: '4é\n' }, '4é\n'], [{ cldr: long }, long]]) {
  const named = Tables.fromJson(example, { supplement: JSON.stringify(members) });
  assert.deepStrictEqual([named.dataName(), named.share().dataName(), named.dataName()], [wanted, wanted, wanted]);
  assert.strictEqual(named.maximize('zh'), 'zh-Hans-CN');
  named.close();
  for (const call of [() => named.dataName(), () => named.validate('en'), () => named.regionName('US', 'en')]) assert.throws(call, { code: 'Closed' });
}
assert.strictEqual(plain.dataName(), undefined);

// a set of a locale, what it has, and what it has not
const SETS = [
  ['main', 'en', 'az', 'äßA1'], ['main', 'de', 'aäßz', 'éA'], ['auxiliary', 'en', 'äéÿ', 'az'], ['index', 'en', 'AZ', 'aÄ'],
  ['numbers', 'de', ',.%‰+09', 'ax'], ['punctuation', 'de', '„“«»!', 'a0'], ['punctuation', 'en', '\'’†', '«„'],
];
const LISTS = [
  ['languages', ['de', 'en', 'gsw', 'zh'], 'tlx'], ['scripts', ['Latn', 'Xsux'], 'Qabc'], ['regions', ['419', 'DE', 'US'], 'QX'],
  ['variants', ['1996', 'fonipa'], 'abcde'],
];

function overCldr() {
  const cldr = Tables.cldr(['en', 'de']);
  reports(cldr);
  for (const text of ['und', 'zh-Hant-TW', 'en-150', 'ca-valencia', 'en-u-rg-gbsct-cu-eur', 'de-u-kr-latn-digit', 'x-mine']) {
    assert.deepStrictEqual(cldr.validate(text, { syntax: 'bcp47' }), [], text);
  }
  names(cldr, OF_CLDR);
  for (const [set, locale, there, notThere] of SETS) {
    for (const it of there + notThere) assert.strictEqual(cldr.hasExemplar(set, locale, it), there.includes(it), `${set} ${locale} ${it}`);
  }
  for (const [kind, some, none] of LISTS) {
    const found = cldr.listed(kind, 'de');
    assert.deepStrictEqual(found, [...new Set(found)].sort(), kind);
    assert.ok(some.every((it) => found.includes(it)) && !found.includes(none), kind);
    assert.deepStrictEqual(cldr.listed(kind, 'fr'), []);
  }
  assert.strictEqual(cldr.dataName(), cldrVersion());
}

try {
  Tables.cldr().close();
} catch (refused) {
  assert.ok(refused instanceof Refused && refused.code === 'NoCldr');
  console.log('codes: as they should be, but not tried over CLDR: the package has no data inside');
  process.exit();
}
overCldr();
console.log('codes: as they should be');
