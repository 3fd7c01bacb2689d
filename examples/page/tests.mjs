// What the page answers in headless Chromium: `tests.mjs ADDRESS PROFILE [PICTURES]`; examples/page/test runs it.
import assert from 'node:assert';
import fs from 'node:fs';
import path from 'node:path';
import { Page } from './chromium.mjs';

const [address, profile, pictures] = process.argv.slice(2);
const [DESK, TELEPHONE] = [1280, 360];
const READY = "performance.getEntriesByName('ready').length > 0";
const OUTPUTS = ['reads', 'canonical', 'maximal', 'minimal', 'direction', 'name'];
// A text, and what the page answers.
const TEXTS = [
  ['zh-TW', 'a locale identifier', 'zh-TW', 'zh-Hant-TW', 'zh-TW', 'left to right', 'Chinese (Taiwan)'],
  ['iw', 'a locale identifier', 'he', 'iw-Hebr-IL', 'iw', 'right to left', 'Hebrew'],
  ['en-u-ca-islamicc', 'a locale identifier', 'en-u-ca-islamic-civil', 'en-Latn-US-u-ca-islamicc', 'en-u-ca-islamicc', 'left to right',
    'English (Islamic Calendar [tabular, civil epoch])'],
  ['i-klingon', 'a language tag of RFC 5646', 'tlh', 'tlh', 'tlh', 'not known', 'Klingon'],
  ['sr_RS.UTF-8@latin', 'a name of a POSIX locale', 'sr-Latn-RS', 'sr-Latn-RS', 'sr-Latn', 'left to right', 'Serbian (Latin, Serbia)'],
];
// A header and what is served of the list that the page begins with.
const HEADERS = [['gsw', 'de'], ['sh', 'sr-Latn'], ['zh-HK', 'zh-Hant'], ['arz', 'ar'], ['de;q=0, *', 'en']];
const page = await Page.open(profile);

const texts = (ids) => page.value(`${JSON.stringify(ids)}.map((it) => document.getElementById(it).textContent)`);
const focus = (id) => page.value(`document.getElementById('${id}').focus()`);
const served = async () => (await page.value("document.querySelector('#served code')?.textContent ?? null"));

async function pictured(name) {
  if (pictures) fs.writeFileSync(path.join(pictures, `${name}.png`), await page.picture());
}

async function answers() {
  await focus('text');
  for (const [text, ...wanted] of TEXTS) {
    await page.type(text);
    assert.deepStrictEqual(await texts(OUTPUTS), wanted, text);
  }
  await page.type('de--AT');
  const refused = 'InvalidSubtag: a subtag is none, or stands where it may not: "de--AT"';
  assert.deepStrictEqual(await texts(OUTPUTS), [refused, ...Array(5).fill('—')]);
  assert.strictEqual(await page.value("document.getElementById('text').getAttribute('aria-invalid')"), 'true');
  await pictured('refused');
  await page.type('de-AT');
  await page.value("Object.assign(document.getElementById('language'), { value: 'ja' }).dispatchEvent(new Event('input'))");
  assert.deepStrictEqual(await texts(['name']), ['ドイツ語 (オーストリア)']);
}

async function serves() {
  await focus('header');
  for (const [header, wanted] of HEADERS) {
    await page.type(header);
    assert.strictEqual(await served(), wanted, header);
  }
  await page.type('gsw-CH, ja;q=0.9');
  assert.strictEqual(await served(), 'de');
  await page.value("document.querySelectorAll('#list button')[1].focus()");
  await page.press('Enter');
  assert.deepStrictEqual(await texts(['served']), ['nothing: none is near enough']);
  await focus('another');
  await page.type('gsw-CH');
  await page.press('Enter');
  assert.strictEqual(await served(), 'gsw-CH');
  assert.strictEqual(await page.value("document.querySelector('#list [aria-current]').textContent"), 'gsw-CH×');
  await page.type('e-');
  await page.press('Enter');
  assert.deepStrictEqual(await texts(['served']), ['List: what stands at place 5 is no identifier: "e-"']);
  assert.strictEqual(await page.value("document.querySelector('#list .refused').textContent"), 'e-×');
  await pictured('refused-in-list');
  await page.value("document.querySelector('#list .refused button').focus()");
  await page.press('Enter');
  assert.strictEqual(await served(), 'gsw-CH');
}

// Each field and button is come to by the key Tab, shows that it is, and has a name.
async function keyboard() {
  await page.value('document.activeElement.blur()');
  const wanted = await page.value("document.querySelectorAll('input, select, button').length");
  const reached = new Set();
  for (let time = 0; time < wanted; time += 1) {
    await page.press('Tab');
    reached.add(await page.value("[...document.querySelectorAll('input, select, button')].indexOf(document.activeElement)"));
    assert.notStrictEqual(await page.value('getComputedStyle(document.activeElement).outlineStyle'), 'none');
  }
  assert.strictEqual(reached.size, wanted);
  const { nodes } = await page.send('Accessibility.getFullAXTree');
  const fields = nodes.filter((it) => ['textbox', 'combobox', 'button'].includes(it.role?.value));
  assert.ok(fields.length >= wanted && fields.every((it) => it.name.value), 'a field without a name');
}

const fits = () => page.value('document.documentElement.scrollWidth <= innerWidth');
const start = (of) => page.value(`document.querySelector('${of}').getBoundingClientRect().left`);

async function directions(width, name) {
  await page.visit(address, width, READY);
  assert.strictEqual(await page.value('document.documentElement.dir'), 'ltr');
  assert.ok(await fits(), 'the page is wider than the screen');
  const areHigh = "[...document.querySelectorAll('input, select, button')].every((it) => it.offsetHeight >= 44)";
  assert.ok(await page.value(areHigh), 'a field or a button is too low for a finger');
  await pictured(name);
  await focus('page');
  await page.value("Object.assign(document.getElementById('page'), { value: 'ar' }).dispatchEvent(new Event('input'))");
  const told = await page.value('[document.documentElement.dir, document.documentElement.lang, document.title]');
  assert.deepStrictEqual(told, ['rtl', 'ar', 'معرّفات اللغات والمناطق']);
  assert.ok(await fits(), 'the page is wider than the screen, from right to left');
  const isRight = await start('section:first-of-type') > await start('section:last-of-type');
  assert.ok(isRight || width !== DESK, 'the first part stands at the left');
  assert.ok(await start('dt') >= await start('dd'), 'a term stands at the left');
  assert.deepStrictEqual(await texts(['name', 'direction']), ['الصينية (تايوان)', 'من اليسار إلى اليمين']);
  await pictured(`${name}-right-to-left`);
}

// How long the page takes, of some loads with nothing kept, and what it fetches.
async function times() {
  const all = [];
  for (let time = 0; time < 7; time += 1) {
    await page.visit(address, DESK, READY);
    all.push(await page.value("['answered', 'ready'].map((it) => performance.getEntriesByName(it)[0].startTime)"));
  }
  const middle = (place) => all.map((it) => it[place]).sort((one, other) => one - other)[3].toFixed(0);
  const sizes = await page.value("performance.getEntriesByType('resource').map((it) => [it.name, it.encodedBodySize])");
  const kilobytes = (of) => (sizes.filter(([name]) => of(name)).reduce((sum, [, size]) => sum + size, 0) / 1000).toFixed(0);
  const isData = (name) => name.includes('/data/');
  console.log(`page: its first answers after ${middle(0)} ms, all languages after ${middle(1)} ms; `
    + `${kilobytes((it) => !isData(it))} KB, and ${kilobytes(isData)} KB of data`);
}

try {
  await page.visit(address, DESK, READY);
  await answers();
  await page.visit(address, DESK, READY);
  await serves();
  await page.visit(address, DESK, READY);
  await keyboard();
  await directions(DESK, 'desk');
  await directions(TELEPHONE, 'telephone');
  assert.deepStrictEqual(page.faults, []);
  console.log('page: as it should be');
  await times();
} finally {
  await page.close();
}
