'use strict';
// Names that are lent to tables in the flat form: what is asked first, what is refused, and what stays.
const assert = require('assert');
const { Worker, isMainThread, parentPort, workerData } = require('worker_threads');
const { Tables, implementation } = require('icu_locale');

const REST = {
  essentials: { en: { pattern: [0, ' (', 1, ')'], separator: [0, ', ', 1] } },
  likely_language: { und: ['en', 'Latn', 'US'] },
  likely_script_region: {},
};
const tablesOf = (names) => Tables.fromJson(JSON.stringify({ ...REST, names }));
const regions = (rows) => ({ 'region/medium/light': { en: rows } });
const BARE = () => tablesOf({});
const NONE = Buffer.concat([Buffer.from('ICUTEXT1'), Buffer.alloc(12)]);
const LENT = tablesOf({ ...regions({ 150: 'Europe', US: 'lent' }), 'language/medium/light': { en: { it: 'Italian' } } }).flatNames();
const OTHER = tablesOf(regions({ 150: 'Europa' })).flatNames();
const named = (tables) => ['150', 'US', 'QX'].map((it) => tables.regionName(it, 'en').name);

function ownNamesComeFirst() {
  const tables = tablesOf(regions({ US: 'own' }));
  assert.deepStrictEqual(named(tables), ['150', 'own', 'QX']);
  tables.lendNames(LENT);
  assert.deepStrictEqual(named(tables), ['Europe', 'own', 'QX']);
  assert.strictEqual(tables.name('it-150', 'en'), 'Italian (Europe)');
  tables.lendNames(OTHER);
  assert.deepStrictEqual([...named(tables), tables.name('it-150', 'en')], ['Europa', 'own', 'QX', 'it (Europa)']);
  assert.deepStrictEqual(tables.flatNames(), tablesOf(regions({ US: 'own' })).flatNames());
  tables.lendNames(NONE);
  assert.deepStrictEqual(named(tables), ['150', 'own', 'QX']);
}

function whatIsRefused() {
  const tables = BARE();
  tables.lendNames(LENT);
  const shape = { name: 'Refused', code: 'Shape', message: 'Shape: the bytes are no names in the flat form' };
  const wrong = [Buffer.alloc(0), NONE.subarray(0, 19), LENT.subarray(0, LENT.length - 1), Buffer.concat([LENT, Buffer.of(255)])];
  for (const each of wrong) assert.throws(() => tables.lendNames(each), shape);
  for (const each of ['ICUTEXT1', null, undefined, 5, [1]]) assert.throws(() => tables.lendNames(each), TypeError);
  for (const made of [tables.share(), tables.negotiator(['en']), tables.switcher(['en'])]) {
    assert.throws(() => tables.lendNames(OTHER), { code: 'Shared' });
    made.close();
  }
  assert.deepStrictEqual(named(tables), ['Europe', 'lent', 'QX']);
  tables.lendNames(OTHER);
  assert.deepStrictEqual(named(tables), ['Europa', 'US', 'QX']);
  tables.close();
  assert.throws(() => tables.lendNames(LENT), { code: 'Closed' });
  assert.throws(() => tables.flatNames(), { code: 'Closed' });
  const long = (length) => tablesOf({ 'language/medium/light': { en: { it: 'x'.repeat(length) } } });
  assert(Buffer.from(long(65535).flatNames()).includes('x'.repeat(65535)));
  assert.throws(() => long(65536).flatNames(), { code: 'Shape', message: /65,535 bytes/ });
}

// The bytes are copied, so that nothing that becomes of them is seen, and the copy stays as long as anything that has it.
function whatStays() {
  const bytes = Uint8Array.from(LENT);
  const tables = BARE();
  tables.lendNames(bytes);
  bytes.fill(255);
  const other = tables.share();
  const third = other.share();
  tables.close();
  other.close();
  for (let time = 0; time < 200; time += 1) BARE().lendNames(LENT);
  assert.deepStrictEqual(named(third), ['Europe', 'lent', 'QX']);
  third.close();
}

// Another worker has them too, also once the first has let them go.
async function whatIsBorrowed() {
  if (implementation !== 'addon') return;
  const tables = BARE();
  tables.lendNames(LENT);
  const worker = new Worker(__filename, { workerData: tables.lend() });
  await new Promise((resolve) => { worker.once('message', resolve); });
  tables.close();
  worker.postMessage('closed');
  const [told] = await Promise.all([
    new Promise((resolve) => { worker.once('message', resolve); }), new Promise((resolve) => { worker.once('exit', resolve); }),
  ]);
  assert.deepStrictEqual(told, ['Europe', 'lent', 'QX']);
}

if (isMainThread) {
  ownNamesComeFirst();
  whatIsRefused();
  whatStays();
  whatIsBorrowed().then(() => console.log('lent: as it should be'));
} else {
  const borrowed = Tables.borrow(workerData);
  parentPort.once('message', () => parentPort.postMessage(named(borrowed)));
  parentPort.postMessage('borrowed');
}
