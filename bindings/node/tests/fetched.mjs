// The package as a browser has it, over a server of files: `fetched.mjs`. What it answers is what the package for Node.js
// answers, and what is missing there is told.
import assert from 'assert';
import fs from 'fs';
import http from 'http';
import path from 'path';
import { createRequire } from 'module';
import { Tables as Here, cldrLocales as hereLocales, cldrVersion as hereVersion } from 'icu_locale';

const require = createRequire(import.meta.url);
const folder = path.dirname(require.resolve('icu_locale'));
const data = [path.join(folder, 'data'), path.join(folder, '..', '..', 'out', 'data')].find((it) => fs.existsSync(it));
const entry = require.resolve('icu_locale/browser');
const example = fs.readFileSync(require.resolve('icu_locale/example.json'), 'utf8');

// A file of the package, or of its data. `/unpacked` is a server that unpacks what it sends, `/other` one of other types.
function file(address) {
  const name = path.basename(address);
  return path.join(address.includes('/data/') ? data : folder, name);
}

const server = http.createServer((request, response) => {
  try {
    const whole = fs.readFileSync(file(request.url));
    const bytes = request.url.startsWith('/cut') ? whole.subarray(0, whole.length / 2) : whole;
    const headers = {};
    if (request.url.endsWith('.wasm') && !request.url.startsWith('/other')) headers['content-type'] = 'application/wasm';
    if (request.url.startsWith('/unpacked') && request.url.endsWith('.gz')) headers['content-encoding'] = 'gzip';
    response.writeHead(200, headers).end(bytes);
  } catch (missing) {
    response.writeHead(404).end('<!doctype html>');
  }
});

// The package once more, as another page would load it.
let count = 0;
const fresh = async () => {
  count += 1;
  return import(`${entry}?${count}`);
};

async function loads(address) {
  const { Tables, Refused, load, implementation } = await fresh();
  assert.strictEqual(implementation, 'module');
  assert.throws(() => Tables.fromJson(example), { name: 'Refused', code: 'NotLoaded', message: /await load\(\)/ });
  await assert.rejects(load({ module: `${address}/missing.wasm` }), { code: 'NotLoaded', message: /404/ });
  await assert.rejects(load({ modul: 1 }), TypeError);
  const place = { module: `${address}/icu_locale.wasm` };
  const [first, second, third] = await Promise.all([load(place), load(), load({ ...place })]);
  assert.ok(first.Tables === second.Tables && first.Tables === third.Tables);
  for (const other of [{ data: `${address}/data/` }, { module: `${address}/other/icu_locale.wasm` }]) {
    await assert.rejects(load(other), { code: 'NotLoaded', message: /^NotLoaded: the package is loaded with (data|module) of another place/ });
  }
  assert.strictEqual(Tables.fromJson(example).maximize('zh-TW'), 'zh-Hant-TW');
  assert.throws(() => Tables.fromJson('{'), Refused);
}

async function loadsOtherwise(address) {
  const bytes = fs.readFileSync(path.join(folder, 'icu_locale.wasm'));
  const kinds = [bytes, bytes.buffer.slice(bytes.byteOffset, bytes.byteOffset + bytes.length), new WebAssembly.Module(bytes),
    fetch(`${address}/icu_locale.wasm`), new URL(`${address.replace(/\/$/, '')}/other/icu_locale.wasm`)];
  for (const module of kinds) {
    const { Tables } = await (await fresh()).load({ module });
    assert.strictEqual(Tables.fromJson(example).canonicalize('sh'), 'sr-Latn');
  }
}

async function fetches(address) {
  const module = `${address}/icu_locale.wasm`;
  for (const place of [`${address}/data/`, `${address}/unpacked/data/`]) {
    const { Tables } = await (await fresh()).load({ module, data: place });
    const [inside, outside] = [Here.cldr(['en', 'zh_hant']), await Tables.cldr(['en', 'zh_hant'])];
    assert.strictEqual(outside.name('en-u-ca-buddhist', 'en'), 'English (Buddhist Calendar)');
    for (const it of ['de-AT', 'yue', 'sr-Latn', 'mo', 'ar-EG', 'de-u-co-phonebk']) {
      for (const call of ['maximize', 'minimize', 'canonicalize', 'direction', 'fallback']) {
        assert.deepStrictEqual(outside[call](it), inside[call](it), `${call} of ${it}`);
      }
      assert.strictEqual(outside.name(it, 'zh-Hant'), inside.name(it, 'zh-Hant'));
    }
    assert.deepStrictEqual(outside.validate('de-DD-u-ca-islamicc'), inside.validate('de-DD-u-ca-islamicc'));
    assert.deepStrictEqual(outside.regionName('us', 'en'), { name: 'United States', isRaw: false });
    assert.deepStrictEqual([outside.hasExemplar('main', 'en', 'a'), outside.dataName()], [true, inside.dataName()]);
    assert.strictEqual(outside.serve('gsw', ['en', 'de']), 'de');
    for (const word of ['xx', '../data/en', 'base-and-supplement', '']) {
      await assert.rejects(Tables.cldr([word]), { code: 'NoCldr', message: `NoCldr: CLDR has no locale ${JSON.stringify(word)}` });
    }
    await assert.rejects(Tables.cldr('en'), TypeError);
  }
  const { Tables, DisplayNames, Locale, cldrLocales, cldrVersion } = await (await fresh()).load({ module, data: `${address}/data/` });
  assert.strictEqual((await Tables.cldr(['zh-TW'])).name('it', 'zh-Hant-TW'), '義大利文');
  assert.deepStrictEqual([await cldrVersion(), await cldrLocales()], [hereVersion(), hereLocales()]);
  assert.strictEqual((await DisplayNames.load(['tlh', 'de-CH'], { type: 'region' })).of('us'), 'Vereinigte Staaten');
  assert.throws(() => new DisplayNames('de', { type: 'region' }), { code: 'NotLoaded', message: /await DisplayNames\.load/ });
  await assert.rejects(DisplayNames.load('tlh', { type: 'region' }), { code: 'NoCldr' });
  assert.throws(() => new Locale('zh').maximize(), { code: 'NotLoaded', message: /hand in tables/ });
  assert.strictEqual(`${new Locale('zh').maximize(await Tables.cldr())}`, 'zh-Hans-CN');
  assert.strictEqual((await Tables.cldr('all')).name('it', 'hi'), Here.cldr(['hi']).name('it', 'hi'));
}

// A file that is cut off on its way is named.
async function damage(address) {
  const { Tables } = await (await fresh()).load({ module: `${address}/icu_locale.wasm`, data: `${address}/cut/data/` });
  await assert.rejects(Tables.cldr(['en']), { code: 'NoCldr', message: new RegExp(`^NoCldr: ${address}/cut/data/[a-z-]+\\.gz is damaged: `) });
  await assert.rejects(Tables.cldr('all'), { code: 'NoCldr', message: /\/cut\/data\/all-but-names\.gz is damaged: / });
}

async function withoutData(address) {
  const { Tables } = await (await fresh()).load({ module: `${address}/icu_locale.wasm`, data: `${address}/nothing/` });
  for (const locales of [[], ['en'], 'all']) {
    const name = locales === 'all' ? 'all-but-names.gz' : 'base-and-supplement.gz';
    const message = `NoCldr: ${address}/nothing/${name} is answered by 404, so that there is none of CLDR's data`;
    await assert.rejects(Tables.cldr(locales), { code: 'NoCldr', message });
  }
}

assert.ok(!/^\s*import |\brequire\(|\bprocess\.|\bBuffer\.|node:/m.test(fs.readFileSync(entry, 'utf8')), 'it imports something');
await new Promise((resolve) => { server.listen(0, '127.0.0.1', resolve); });
const address = `http://127.0.0.1:${server.address().port}`;
await loads(address);
await loadsOtherwise(address);
if (data) await fetches(address);
if (data) await damage(address);
await withoutData(address);
server.close();
console.log(`fetched: as it should be${data ? '' : ', without data'}`);
