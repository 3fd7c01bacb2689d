'use strict';
// Names by the ways of Intl.DisplayNames.
const assert = require('assert');
const { DisplayNames, Locale, Tables } = require('icu_locale');

function hasData() {
  try {
    Tables.cldr().close();
    return true;
  } catch (refused) {
    return false;
  }
}

// A locale, options, a code and its name.
const NAMED = [
  ['de', { type: 'language' }, 'de-AT', 'Österreichisches Deutsch'],
  ['en', { type: 'language' }, 'en-us', 'American English'],
  ['en', { type: 'language', languageDisplay: 'standard' }, 'en-US', 'English (United States)'],
  ['en', { type: 'language', languageDisplay: 'standard' }, 'zh-Hant', 'Chinese (Traditional)'],
  ['en', { type: 'language', style: 'short' }, 'en-GB', 'UK English'],
  ['en', { type: 'language', style: 'narrow' }, 'az', 'Azeri'],
  ['en', { type: 'language' }, 'it-Qabc', 'Italian (Qabc)'],
  ['en', { type: 'region' }, 'us', 'United States'],
  ['en', { type: 'region', style: 'short' }, 'US', 'US'],
  ['zh-TW', { type: 'region' }, 'DE', '德國'],
  ['fr', { type: 'region' }, '419', 'Amérique latine'],
  ['en', { type: 'region' }, 'QX', 'QX'],
  ['de-CH', { type: 'script' }, 'latn', 'Lateinisch'],
  ['en', { type: 'script' }, 'Qabc', 'Qabc'],
];

if (!hasData()) {
  console.log('names: not tried: the package has no data inside');
} else {
  for (const [locale, options, code, wanted] of NAMED) {
    const names = new DisplayNames(locale, options);
    assert.strictEqual(names.of(code), wanted, `${code} in ${locale}, ${JSON.stringify(options)}`);
    const isRaw = /Qabc|QX/.test(code);
    assert.strictEqual(new DisplayNames([locale], { ...options, fallback: 'none' }).of(code), isRaw ? undefined : wanted);
  }
  const names = new DisplayNames(['tlh', new Locale('zh-TW'), 'en'], { type: 'region' });
  assert.deepStrictEqual(names.resolvedOptions(), { locale: 'zh-Hant-TW', type: 'region', style: 'long', fallback: 'code' });
  assert.strictEqual(new DisplayNames('en', { type: 'language' }).resolvedOptions().languageDisplay, 'dialect');
  for (const code of ['', 'Latn', 'US-fonipa', 'USA', 'US-u-ca-roc']) assert.throws(() => names.of(code), { code: 'InvalidSubtag' });
  assert.throws(() => new DisplayNames('en', { type: 'language' }).of('e'), { code: 'InvalidLanguage' });
  assert.throws(() => new DisplayNames(['tlh', 'xx'], { type: 'region' }), { code: 'NoCldr' });
  for (const wrong of [undefined, {}, { typ: 'region' }, 'region']) assert.throws(() => new DisplayNames('en', wrong), TypeError);
  for (const wrong of [{ type: 'currency' }, { type: 'region', style: 'wide' }]) assert.throws(() => new DisplayNames('en', wrong), RangeError);
  assert.throws(() => DisplayNames('en', { type: 'region' }), TypeError);
  DisplayNames.load('en', { type: 'region' }).then((it) => {
    assert.strictEqual(it.of('GB'), 'United Kingdom');
    console.log('names: as they should be');
  });
}
