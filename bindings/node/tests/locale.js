'use strict';
// A locale as an object. What can be asked of Intl.Locale is compared with it.
const assert = require('assert');
const fs = require('fs');
const util = require('util');
const { Locale, Tables } = require('icu_locale');

const refuses = (call, code) => assert.throws(call, (error) => error.code === code);

const locale = new Locale('zh_hant_tw-u-nu-hanidec-ca-roc');
assert.strictEqual(`${locale}`, 'zh-Hant-TW-u-ca-roc-nu-hanidec');
assert.deepStrictEqual([locale.language, locale.script, locale.region, locale.variants], ['zh', 'Hant', 'TW', []]);
assert.deepStrictEqual({ ...locale.keywords }, { ca: 'roc', nu: 'hanidec' });
assert.strictEqual(JSON.stringify({ locale }), '{"locale":"zh-Hant-TW-u-ca-roc-nu-hanidec"}');

const all = new Locale('sl-rozaj-biske-a-foo-t-de-m0-din-u-attr-kn-x-one-two');
assert.deepStrictEqual(all.variants, ['biske', 'rozaj']);
assert.deepStrictEqual(all.attributes, ['attr']);
assert.deepStrictEqual({ ...all.keywords }, { kn: '' });
assert.strictEqual(all.transformLanguage, 'de');
assert.deepStrictEqual({ ...all.fields }, { m0: 'din' });
assert.deepStrictEqual({ ...all.extensions }, { a: 'foo' });
assert.strictEqual(all.privateUse, 'one-two');

for (const text of ['en', 'und', 'de-Latn-DE-1996', 'ar-EG-u-nu-arab-hc-h23', 'th-TH-u-ca-buddhist', 'de-u-co-phonebk']) {
  const [here, there] = [new Locale(text), new Intl.Locale(text)];
  for (const name of ['baseName', 'script', 'region', 'calendar', 'collation', 'hourCycle', 'numberingSystem']) {
    assert.strictEqual(here[name], there[name], `${name} of ${text}`);
  }
  assert.strictEqual(String(here), String(there));
}

// options stand in the place of parts, as those of Intl.Locale do
for (const [text, options] of [
  ['en', { script: 'Latn', region: 'GB' }], ['de-1996', { calendar: 'roc', numeric: true, caseFirst: 'upper' }],
  ['zh-TW-u-ca-roc-kn-x-a', { language: 'yue', numeric: false, hourCycle: 'h12' }], ['ja-t-en-m0-din', { collation: 'unihan' }],
  ['en-a-foo-u-nu-latn', { numberingSystem: 'arab', region: undefined }],
]) {
  const [here, there] = [new Locale(text, options), new Intl.Locale(text, options)];
  assert.strictEqual(String(here), String(there));
  assert.deepStrictEqual([here.numeric, here.caseFirst], [there.numeric, there.caseFirst]);
}
for (const wrong of [{ region: 'english' }, { calendar: 'a' }, { script: 'Latn-US-u-ca' }]) refuses(() => new Locale('en', wrong), 'InvalidSubtag');
assert.throws(() => new Locale('en', { calendar: 5 }), TypeError);
assert.strictEqual(util.inspect(locale), "Locale 'zh-Hant-TW-u-ca-roc-nu-hanidec'");
const likely = Tables.fromJson(fs.readFileSync(require.resolve('icu_locale/example.json')));
const [taiwan, arabic] = [new Locale('zh-TW-u-ca-roc'), new Locale('ar')];
assert.deepStrictEqual([String(taiwan.maximize(likely)), String(taiwan.maximize(likely).minimize(likely))], ['zh-Hant-TW-u-ca-roc', 'zh-TW-u-ca-roc']);
assert.deepStrictEqual([arabic.getTextInfo(likely), new Locale('und').getTextInfo(likely)], [{ direction: 'rtl' }, { direction: undefined }]);

assert.strictEqual(String(new Locale('de_DE.UTF-8', { syntax: 'posix' })), 'de-DE');
assert.strictEqual(String(new Locale(Buffer.from('fr-ca'))), 'fr-CA');
refuses(() => new Locale(''), 'InvalidLanguage');
refuses(() => new Locale('en-u'), 'InvalidSubtag');
// where a text is wrong, by the grammar of UTS #35 Part 1, section 3.2; five letters and digits are a variant
for (const [text, start, end, subtag] of [
  ['', 0, 0, ''], ['1-US', 0, 1, '1'], ['en-Latm1-US', 9, 11, 'US'], ['de-u', 4, 4, ''], ['en-\u{1f310}-US', 3, 5, '\u{1f310}'],
]) assert.throws(() => new Locale(text), { start, end, subtag });
assert.throws(() => new Locale('en-', { syntax: 'bcp47' }), (refused) => refused.code === 'InvalidSubtag' && !('subtag' in refused));
assert.throws(() => new Locale(5), TypeError);
assert.throws(() => new Locale('en', { syntax: 'utf8' }), RangeError);
assert.throws(() => { locale.region = 'HK'; }, TypeError);
assert.throws(() => { locale.keywords.ca = 'roc'; }, TypeError);
console.log('locale: as it should be');
