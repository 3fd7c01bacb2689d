'use strict';
// What is served, which the library decides: that all is handed over, and what comes back.
const assert = require('assert');
const fs = require('fs');
const { Tables, Refused } = require('icu_locale');

const [example, supplement] = ['example', 'example-supplement'].map((it) => fs.readFileSync(require.resolve(`icu_locale/${it}.json`)));
const tables = Tables.fromJson(example, { supplement });
const AVAILABLE = ['en', 'de', 'AR_eg', 'zh_hant', 'sr-Latn'];
// A header or several, and what is served.
const SERVED = [
  ['en-GB', 'en'], ['de-AT;q=0.5, en;q=0.4', 'de'], ['ar', 'AR_eg'], ['zh-TW', 'zh_hant'], ['zh-CN, de;q=0.1', 'de'],
  ['sh', AVAILABLE[4]], ['sr-Latn-x-a', AVAILABLE[4]], ['sr-Cyrl', null], ['zh-CN', null], ['gsw', 'de'],
  ['yue', 'zh_hant'], ['yue-Hans', null], ['fr, gsw, en;q=0.5', 'en'], ['', null], [[], null], [[''], null],
  ['de-1996', 'de'], ['de-u-co-phonebk, en', 'de'], ['de-x-mine', 'de'], ['x-mine, i-klingon, de', 'de'],
  ['i-enochian, und-x-a, de', 'de'], ['i-default', 'en'], ['EN-gb-OED', 'en'], ['zh-cmn-TW, de', 'de'],
  ['zz-zz-zz, *', 'en'], ['*', 'en'], ['*;q=0', null], ['en;q=0, *;q=0.1', 'de'], ['EN;q=0, de;q=0, *', 'AR_eg'],
  ['de;q=0, ja;q=0.2', null], ['de;q=x, en', 'en'], ['de;q=1.001, en;q=0.1', 'en'], ['de;q=nan, en', 'en'],
  ['de; q = 0.1, en ; Q=0.2', 'en'], ['de;level=1;q=0.1, en;q=0.2', 'en'], ['de;q=0.1,,en', 'en'], [';q=1, de', 'de'],
  ['fr\r\nde', null], ['sh\tabcdefg', null], ['de\0, en', 'en'],
  [['fr, en;q=0.1', 'de;q=0.2'], 'de'], [['fr', 'de'], 'de'], ['\u00ff, de', 'de'], ['\ud800, de', 'de'],
  [Buffer.from('de'), 'de'], [['fr', new Uint8Array([100, 101])], 'de'], [Buffer.from([255, 44, 100, 101]), 'de'],
  [undefined, null], [null, null], ['f'.repeat(100000) + ',de', 'de'], ['x,'.repeat(100000) + 'de', null],
];

const switcher = tables.switcher(AVAILABLE);
for (const [headers, wanted] of SERVED) {
  assert.strictEqual(switcher.serve(headers), wanted, String(headers).slice(0, 50));
  assert.strictEqual(tables.serve(headers, AVAILABLE), wanted, String(headers).slice(0, 50));
}
assert.strictEqual(tables.serve('de', ['en', 'DE']), 'DE');
assert.strictEqual(tables.serve('en', []), null);
assert.deepStrictEqual(switcher.available, AVAILABLE);

// a default
const none = {};
const sure = tables.switcher(AVAILABLE, { default: none });
for (const headers of [null, undefined, '', [], 'fr', '*;q=0']) {
  assert.strictEqual(sure.serve(headers), none);
  assert.strictEqual(tables.serve(headers, AVAILABLE, { default: none }), none);
  assert.strictEqual(tables.serve(headers, AVAILABLE, { default: undefined }), null);
}
assert.strictEqual(sure.serve('de'), 'de');
assert.strictEqual(sure.nearest(['fr']), none);
assert.strictEqual(tables.nearest([], AVAILABLE, { default: none }), none);

// requests
for (const [requests, wanted] of [[['en-GB'], 'en'], [['fr', 'de-AT'], 'de'], [['ZH_tw'], 'zh_hant'], [['sh'], 'sr-Latn'],
  [['fr', 'gsw-u-co-phonebk-x-a'], 'de'], [['fr'], null], [[], null]]) {
  assert.strictEqual(switcher.nearest(requests), wanted);
  assert.strictEqual(tables.nearest(requests, AVAILABLE), wanted);
}
for (const faulty of ['', ' ', 'en ', 'e', 'en-', 'en\n', 'en\0', '\u00e9n', 'i-klingon', 'zh-cmn', 'en-u', 'x-a', 'sh\tabcdefg']) {
  for (const requests of [[faulty], ['en', faulty], [faulty, 'en']]) {
    for (const call of [() => switcher.nearest(requests), () => tables.nearest(requests, AVAILABLE)]) {
      assert.throws(call, { code: 'List', place: requests.indexOf(faulty) });
    }
  }
}
for (const wrong of ['en', 5, null, undefined, [5]]) assert.throws(() => switcher.nearest(wrong), TypeError);

// what is near enough
for (const [options, available, requests, wanted] of [
  [{ threshold: 8 }, ['en', 'de'], ['gsw'], null], [{ threshold: 9 }, ['en', 'de'], ['gsw'], 'de'],
  [{ threshold: 54 }, ['zh-TW'], ['zh'], null], [{ threshold: 55 }, ['zh-TW'], ['zh'], 'zh-TW'],
  [{ threshold: 0 }, ['en'], ['en'], null], [{ threshold: 65535 }, ['ar'], ['en'], 'ar'],
  [{ demotion: undefined }, ['en-GB', 'de'], ['en-AU', 'de'], 'en-GB'], [{ demotion: 0 }, ['en-GB', 'de'], ['en-AU', 'de'], 'de'],
  [{ demotion: 2 }, ['en-GB', 'de'], ['en-AU', 'de'], 'de'], [{ demotion: 3 }, ['en-GB', 'de'], ['en-AU', 'de'], 'en-GB'],
  [{ favorScript: true }, ['de'], ['en'], 'de'], [{ favorScript: true }, ['zh-TW'], ['zh'], null],
  [{ favorScript: true, threshold: 5 }, ['de'], ['gsw'], null], [{ favorScript: true, threshold: 6 }, ['de'], ['gsw'], 'de'],
  [{ orFirst: true }, ['de', 'en'], ['fr'], 'de'], [{ orFirst: true }, ['de', 'en'], ['en'], 'en'],
  [{ orFirst: true }, ['de'], [], 'de'], [{ orFirst: true }, [], ['de'], null],
  [{ orFirst: true, threshold: 0 }, ['de', 'en'], ['en'], 'de'],
]) {
  const near = tables.switcher(available, options);
  assert.strictEqual(near.nearest(requests), wanted);
  assert.strictEqual(near.serve(requests), wanted);
}
assert.strictEqual(tables.switcher(['de', 'en'], { orFirst: true }).serve('*;q=0'), 'de');
assert.strictEqual(tables.switcher([], { orFirst: true, default: 'en' }).serve('de'), 'en');
for (const name of ['threshold', 'demotion']) {
  for (const wrong of ['5', null, 5n, true]) assert.throws(() => tables.switcher(['en'], { [name]: wrong }), TypeError);
  for (const wrong of [-1, 0.5, NaN, 65536]) assert.throws(() => tables.switcher(['en'], { [name]: wrong }), RangeError);
}

// the locale that formats for a reader
const formats = tables.switcher(['de', 'en-GB', 'zh_hant']);
for (const [requests, ...wanted] of [
  [['de-CH'], 0, 'de-CH'], [['en-AU-u-ca-buddhist'], 1, 'en-AU-u-ca-buddhist'], [['gsw-CH'], 0, 'de-CH'],
  [['zh-TW'], 2, 'zh-Hant-TW'], [['fr-x-a', 'DE_1996'], 0, 'de-1996'], [['en'], 1, 'en-GB'], [['gsw-u-nu-latn'], 0, 'de-u-nu-latn'],
]) {
  assert.deepStrictEqual(formats.resolved(requests), { available: wanted[0], locale: wanted[1] });
}
for (const requests of [['fr'], []]) assert.strictEqual(formats.resolved(requests), null);
assert.throws(() => formats.resolved(['en', 'en-']), { code: 'List', place: 1 });
for (const wrong of ['en', 5, null, undefined, [5]]) assert.throws(() => formats.resolved(wrong), TypeError);
const first = tables.switcher(['zh_hant', 'de'], { default: 'en', threshold: 8, orFirst: true });
assert.deepStrictEqual(first.resolved(['gsw-CH']), { available: 0, locale: 'zh-Hant' });
assert.deepStrictEqual(first.resolved(['de-CH']), { available: 1, locale: 'de-CH' });
assert.strictEqual(tables.switcher([], { default: 'en', orFirst: true }).resolved(['de']), null);

// distances, and whether two are the same
for (const [desired, supported, wanted] of [['en-AU', 'en-GB', 3], ['en', Buffer.from('EN_gb'), 5], ['zh', 'zh-TW', 54],
  ['en', 'de', 84], ['de-u-co-phonebk', 'de-x-a', 0], ['gsw', 'de', 8]]) {
  assert.strictEqual(tables.distance(desired, supported), wanted);
}
assert.strictEqual(tables.distance('i-klingon', 'tlh', { syntax: 'bcp47' }), 0);
assert.throws(() => tables.distance('en', 'de', { syntax: 'utf8' }), RangeError);
assert.throws(() => tables.distance('en', 5), TypeError);
for (const pair of [['', ''], ['e', 'de'], ['en', ''], ['en de', ''], ['', 'en de'], ['i-klingon', 'en'], ['en', 'de fr']]) {
  assert.throws(() => tables.distance(...pair), { code: /^Invalid/ });
}
assert.strictEqual(tables.areSame('sh', 'sr_latn'), true);
assert.strictEqual(tables.areSame(Buffer.from('sh-u-rg-abcdefg'), 'sr-Latn-u-rg-xyz'), true);
assert.strictEqual(tables.areSame('en', 'en-Latn'), false);
assert.strictEqual(tables.areSame('i-klingon', 'tlh', { syntax: 'bcp47' }), true);
for (const pair of [['e', 'en'], ['en', 'e'], ['i-klingon', 'en']]) {
  assert.throws(() => tables.areSame(...pair), { code: 'InvalidLanguage' });
}

// what is refused
for (const [place, available] of [['e'], ['en', 'x-mine'], ['en', 'de', 'en-'], ['en', 'de', 'ar', 'sr-u-ka-noignore']].entries()) {
  for (const call of [() => tables.switcher(available), () => tables.serve('en', available), () => tables.nearest([], available)]) {
    assert.throws(call, { code: 'List', place });
  }
}
for (const wrong of ['en', 5, null, [5]]) assert.throws(() => tables.serve('en', wrong), TypeError);
for (const wrong of [5, [5], [null], {}]) assert.throws(() => tables.serve(wrong, ['en']), TypeError);
const { aliases, ...others } = JSON.parse(example);
assert.strictEqual(Tables.fromJson(JSON.stringify(others), { supplement }).distance('en', 'en-GB'), 5);

tables.close();
assert.throws(() => tables.serve('de', ['de']), Refused);
assert.strictEqual(switcher.serve('de'), 'de');
switcher.close();
switcher.close();
assert.throws(() => switcher.serve('de'), { code: 'Closed' });
assert.throws(() => switcher.nearest(['de']), { code: 'Closed' });
assert.throws(() => switcher.resolved(['de']), { code: 'Closed' });
console.log('switcher: as it should be');
