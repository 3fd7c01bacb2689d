// The package for `import`.
import assert from 'assert';
import * as module from 'icu_locale';

const { default: calls, ...others } = module;
const { Refused, Tables, load } = others;
assert.deepStrictEqual(others, { ...calls });
assert.strictEqual((await load()).Tables, Tables);
assert.throws(() => Tables.fromJson('{'), Refused);
console.log('module: as it should be');
