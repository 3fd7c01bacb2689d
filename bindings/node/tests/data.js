'use strict';
// CLDR's data inside the package: its answers are those of tables of CLDR's folder, which are handed in as two files.
const assert = require('assert');
const childProcess = require('child_process');
const fs = require('fs');
const os = require('os');
const path = require('path');
const zlib = require('zlib');
const { Tables, Refused, cldrLocales, cldrVersion } = require('icu_locale');

const LANGUAGES = ['und', 'en', 'de', 'sr', 'zh', 'ar', 'iw', 'hy', 'sgn', 'mo', 'tlh', 'yue'];
const SCRIPTS = ['', '-Latn', '-Arab', '-Hant', '-Qaai'];
const REGIONS = ['', '-DE', '-TW', '-SU', '-419', '-IR'];
const REST = ['-1996', '-heploc-hepburn', '-u-ca-islamicc-rg-usca', '-'];
const product = (...lists) => lists.reduce((texts, list) => texts.flatMap((it) => list.map((end) => it + end)));
const IDENTIFIERS = [...product(LANGUAGES, SCRIPTS, REGIONS), ...product(LANGUAGES, REST), ''];

// What a call gives, or how it refuses.
function told(call) {
  try {
    return call();
  } catch (refused) {
    assert.ok(refused instanceof Refused, String(refused));
    return `${refused.code}: ${refused.message}`;
  }
}

function answers(tables, it) {
  const calls = [
    () => tables.maximize(it), () => tables.minimize(it), () => tables.minimize(it, { favorScript: true }),
    () => tables.canonicalize(it), () => tables.canonicalize(it, 'usca'), () => tables.direction(it),
    () => tables.fallback(it), () => tables.name(it, 'en'), () => tables.name(it, 'de'), () => tables.name(it, 'fr'),
    () => tables.name(it, 'en', 'menu-light'), () => tables.distance(it, 'en-GB'), () => tables.areSame(it, 'he'),
    () => tables.name(it, 'en-AU', 'light', { fallback: true }), () => tables.serve(it, ['en', 'de', 'zh_Hant']),
    () => tables.nearest([it], ['en', 'ar']), () => tables.negotiator(['en', 'zh-Hant']).negotiate([it]),
  ];
  return calls.map(told);
}

function compared(tables, supplement) {
  const outside = Tables.fromJson(fs.readFileSync(tables), { supplement: fs.readFileSync(supplement) });
  const inside = Tables.cldr(['en', 'de']);
  for (const it of IDENTIFIERS) assert.deepStrictEqual(answers(inside, it), answers(outside, it), it);
}

// Subdivisions and time zones have no names in the data inside.
function extensions() {
  const tables = Tables.cldr(['en', 'de']);
  assert.strictEqual(tables.name('en-u-ca-buddhist', 'en'), 'English (Buddhist Calendar)');
  assert.strictEqual(tables.name('ja-t-en-u-hc-h12', 'de'), 'Japanisch (t: Englisch, 12-Stunden-Format [1-12])');
  assert.strictEqual(tables.name('de-u-cu-eur-rg-ustx', 'en'), 'German (Currency: €, Region For Supplemental Data: ustx)');
  assert.strictEqual(Tables.cldr('all').name('de-u-ca-buddhist', 'de'), 'Deutsch (Buddhistischer Kalender)');
}

function refusesLocale(locale) {
  const message = `NoCldr: CLDR has no locale ${JSON.stringify(locale)}`;
  assert.throws(() => Tables.cldr(['en', locale]), { name: 'Refused', code: 'NoCldr', message });
}

function locales() {
  assert.strictEqual(Tables.cldr().maximize('zh-TW'), 'zh-Hant-TW');
  assert.strictEqual(Tables.cldr().isSettled(), true);
  assert.throws(() => Tables.cldr([]).name('it', 'en'), /IdentifierNotFound/);
  const some = Tables.cldr(['EN_gb', 'en-GB', 'zh_hant']);
  assert.strictEqual(some.name('it', 'en-GB'), 'Italian');
  assert.strictEqual(some.name('it', 'zh-Hant'), '義大利文');
  assert.throws(() => some.name('it', 'en'), /IdentifierNotFound/);
  const every = Tables.cldr('all');
  for (const locale of ['en', 'de', 'zh-Hant-HK', 'hi']) {
    const one = Tables.cldr([locale]);
    const [found, wanted] = [every, one].map((each) => IDENTIFIERS.map((it) => told(() => each.name(it, locale))));
    assert.deepStrictEqual(found, wanted, locale);
  }
  ['xx', 'all', '', 'no locale', 'base-and-supplement', '../data/en', 'en\0'].forEach(refusesLocale);
  for (const wrong of ['en', 5, [5], null, [undefined]]) assert.throws(() => Tables.cldr(wrong), TypeError);
}

// In the place of a locale comes the first of its chain.
function chains() {
  const tables = Tables.cldr(['zh_TW', 'en-XX', 'de-u-co-phonebk']);
  assert.strictEqual(tables.name('it', 'zh-Hant-TW'), '義大利文');
  assert.strictEqual(tables.name('it', 'zh-TW', { fallback: true }), '義大利文');
  assert.deepStrictEqual(['en', 'de'].map((it) => tables.name('it', it)), ['Italian', 'Italienisch']);
  const list = cldrLocales();
  assert.deepStrictEqual(list, [...list].sort());
  assert.ok(list.includes('zh-Hant') && !list.includes('zh-TW'));
  assert.match(cldrVersion(), /^[0-9.]+$/);
}

// The files of every locale, cut off or of another content.
function damageOfAll(data, work, textsOfFolder) {
  const names = ['all-but-names.gz', 'names.flat'];
  for (const name of names) fs.copyFileSync(path.join(data, name), path.join(work, 'data', name));
  const { tables, supplement, flat } = textsOfFolder('all');
  assert.ok(!('names' in JSON.parse(tables)) && 'extension_names' in JSON.parse(supplement));
  assert.ok(flat.equals(fs.readFileSync(path.join(data, 'names.flat'))));
  const packed = fs.readFileSync(path.join(data, 'all-but-names.gz'));
  for (const wrong of [Buffer.from('no file'), packed.subarray(0, -9), zlib.gzipSync('{}'), zlib.gzipSync('{}\n{}\n{}')]) {
    fs.writeFileSync(path.join(work, 'data', 'all-but-names.gz'), wrong);
    assert.throws(() => textsOfFolder('all'), { name: 'Refused', code: 'NoCldr', message: /data\/all-but-names\.gz is damaged: / });
  }
  fs.writeFileSync(path.join(work, 'data', 'all-but-names.gz'), packed);
  fs.rmSync(path.join(work, 'data', 'names.flat'));
  assert.throws(() => textsOfFolder('all'), { code: 'NoCldr', message: /data\/names\.flat is damaged: / });
  fs.writeFileSync(path.join(work, 'data', 'names.flat'), flat.subarray(0, -1));
  const words = ['-p', 'try { require("icu_locale").Tables.cldr("all") } catch ({ message }) { message }'];
  const env = { ...process.env, ICU_LOCALE_DATA: path.join(work, 'data') };
  const said = childProcess.execFileSync(process.execPath, [...process.execArgv, ...words], { env, encoding: 'utf8' });
  assert.match(said, /^NoCldr: .*data is damaged: Shape: the bytes are no names in the flat form\n$/);
}

// A copy of the package whose data has a fault says which file has it.
function damage() {
  const folder = path.dirname(require.resolve('icu_locale'));
  const data = [path.join(folder, 'data'), path.join(folder, '..', '..', 'out', 'data')].find((it) => fs.existsSync(it));
  const work = fs.mkdtempSync(path.join(os.tmpdir(), 'icu_locale-'));
  try {
    for (const name of fs.readdirSync(folder).filter((it) => /\.js(on)?$/.test(it))) fs.copyFileSync(path.join(folder, name), path.join(work, name));
    fs.mkdirSync(path.join(work, 'data'));
    for (const name of ['base-and-supplement.gz', 'locales', 'de.gz']) fs.copyFileSync(path.join(data, name), path.join(work, 'data', name));
    const whole = fs.readFileSync(path.join(data, 'en.gz'));
    const { textsOfFolder } = require(path.join(work, 'data.js'));
    const words = ['-p', 'require("icu_locale").Tables.cldr(["de"]).name("de-AT", "de")'];
    const env = { ...process.env, ICU_LOCALE_DATA: path.join(work, 'data') };
    const said = childProcess.execFileSync(process.execPath, [...process.execArgv, ...words], { env, encoding: 'utf8' });
    assert.strictEqual(said, 'Österreichisches Deutsch\n');
    for (const wrong of [Buffer.from('no file'), whole.map((it, at) => (at === 99 ? it ^ 8 : it)), whole.subarray(0, -9)]) {
      fs.writeFileSync(path.join(work, 'data', 'en.gz'), wrong);
      assert.throws(() => textsOfFolder(['en', 'en-GB']), { name: 'Refused', code: 'NoCldr', message: /data\/en\.gz is damaged: / });
      assert.deepStrictEqual(textsOfFolder(['de']).missing, []);
    }
    damageOfAll(data, work, textsOfFolder);
    const { tables, missing } = textsOfFolder(['en', 'de']);
    assert.deepStrictEqual(missing, []); // `en` is before what is cut off, which is not read
    assert.deepStrictEqual(Object.keys(JSON.parse(tables).essentials), ['de', 'en']);
    const text = zlib.gunzipSync(whole).toString();
    for (const [part, other] of [['Italian', 'Italien'], ['en-AE', 'en-AU'], [text[0], 'x']]) {
      fs.writeFileSync(path.join(work, 'data', 'en.gz'), zlib.gzipSync(text.replace(part, other)));
      assert.throws(() => textsOfFolder(['en']), { code: 'NoCldr', message: /data\/en\.gz is damaged: its first block has another sum/ });
    }
  } finally {
    fs.rmSync(work, { recursive: true });
  }
}

const files = process.argv.slice(2);
if (/inside/.test(told(() => Tables.cldr() && ''))) {
  console.log('data: the package has none inside');
} else {
  locales();
  chains();
  damage();
  extensions();
  if (files.length) compared(...files);
  console.log(`data: as it should be${files.length ? '' : ', not compared: there is no unicode-cldr-core'}`);
}
