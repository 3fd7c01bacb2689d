'use strict';
// The aliases of values in a supplement.
const assert = require('assert');
const fs = require('fs');
const { Tables } = require('icu_locale');

const example = fs.readFileSync(require.resolve('icu_locale/example.json'));
const over = (supplement) => Tables.fromJson(example, { supplement: JSON.stringify(supplement) });
const circle = { aaa: 'bbb', bbb: 'aaa' };

const tables = over({ keywords: { ca: { islamicc: 'islamic-civil' }, kb: { yes: 'true' } }, fields: { m0: { names: 'prprname' } } });
for (const [identifier, wanted] of [['en-u-ca-islamicc', 'en-u-ca-islamic-civil'], ['en-u-kb-yes', 'en-u-kb'],
  ['en-t-m0-names', 'en-t-m0-prprname']]) {
  assert.strictEqual(tables.canonicalize(identifier), wanted);
  assert.strictEqual(tables.areSame(identifier, wanted), true);
}
const round = over({ keywords: { ca: circle }, fields: { m0: circle } });
assert.throws(() => round.canonicalize('en-u-ca-aaa'), { code: 'NoValueFixedPoint' });
assert.throws(() => round.canonicalize('en-t-m0-aaa'), { code: 'NoFieldFixedPoint' });
console.log('values: as they should be');
