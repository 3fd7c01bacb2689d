'use strict';
// Sixteen worker threads over the same tables, which are in memory once, and some with tables of their own: all of them over
// the module, which lends nothing. Some are ended in the middle of their work.
const assert = require('assert');
const fs = require('fs');
const threads = require('worker_threads');
const { Tables, implementation } = require('icu_locale');

const TIMES = 1000;
const example = fs.readFileSync(require.resolve('icu_locale/example.json'));

function work({ loan, again }) {
  const tables = loan === undefined ? Tables.fromJson(example) : Tables.borrow(loan);
  const negotiator = tables.negotiator(['en', 'de', 'zh-Hant']);
  const begun = Date.now();
  do {
    for (let time = 0; time < TIMES; time += 1) {
      assert.strictEqual(tables.maximize('zh'), 'zh-Hans-CN');
      assert.strictEqual(tables.canonicalize('sh'), 'sr-Latn');
      assert.deepStrictEqual(negotiator.negotiate(['fr', 'zh-TW']), { request: 1, available: 2 });
      tables.share();
      if (loan !== undefined) Tables.borrow(Tables.borrow(loan).lend()).close();
    }
    threads.parentPort.postMessage('asked');
  } while (again && Date.now() - begun < 60000);
}

// A worker that ends by itself, or is ended once it has begun to ask.
function worker(loan, again) {
  const made = new threads.Worker(__filename, { workerData: { loan, again } });
  return new Promise((resolve, reject) => {
    made.on('error', reject);
    made.on('message', () => { if (again) made.terminate(); });
    made.on('exit', resolve);
  });
}

function loans() {
  const first = Tables.fromJson(example);
  const loan = first.lend();
  assert.strictEqual(first.lend(), loan);
  const other = Tables.borrow(loan);
  first.close();
  assert.strictEqual(other.maximize('zh'), 'zh-Hans-CN');
  for (const ended of [loan, 0n, 2n ** 64n]) assert.throws(() => Tables.borrow(ended), { code: 'Closed' });
  for (const wrong of [1, '1', undefined]) assert.throws(() => Tables.borrow(wrong), TypeError);
  assert.throws(() => first.lend(), { code: 'Closed' });
}

function noLoans() {
  const tables = Tables.fromJson(example);
  for (const call of [() => tables.lend(), () => Tables.borrow(1n)]) assert.throws(call, { code: 'NoLoan', message: /[a-z]+ [a-z]+/ });
  assert.throws(() => Tables.borrow(1), TypeError);
}

async function main() {
  const lends = implementation === 'addon';
  if (lends) loans();
  else noLoans();
  const tables = Tables.fromJson(example);
  const loan = lends ? tables.lend() : undefined;
  const all = Array.from({ length: 16 }, (_, number) => worker(number % 8 ? loan : undefined, number % 4 === 3));
  const statuses = await Promise.all(all);
  assert.deepStrictEqual(statuses, statuses.map((_, number) => (number % 4 === 3 ? 1 : 0)));
  assert.strictEqual((lends ? Tables.borrow(loan) : tables).maximize('zh'), 'zh-Hans-CN');
  if (threads.markAsUncloneable) {
    assert.throws(() => new threads.MessageChannel().port1.postMessage(tables), { name: 'DataCloneError' });
  }
  console.log('workers: as they should be');
}

if (threads.isMainThread) main();
else work(threads.workerData);
