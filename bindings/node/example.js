'use strict';
// A first run: `node node_modules/icu_locale/example.js` where the package is installed.
const fs = require('fs');
const path = require('path');
const { Tables } = require('./index.js');

const [json, supplement] = ['example.json', 'example-supplement.json'].map((it) => fs.readFileSync(path.join(__dirname, it)));
const tables = Tables.fromJson(json, { supplement });
console.log(tables.maximize('zh-TW'));
console.log(tables.name('it-US', 'en'));
console.log(tables.serve('fr, zh-TW;q=0.5', ['en', 'zh-Hant']));
