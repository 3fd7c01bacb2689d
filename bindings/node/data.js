'use strict';
// CLDR's data inside the package, read from its folder.
const fs = require('fs');
const path = require('path');
const zlib = require('zlib');
const {
  BASE, ALL, FLAT, refuseWithoutData, damaged, wholeBase, textsOfAll, languagesOf, linesWanted, wholeBlock, textsOf,
} = require('./cldr.js');

// In the folder that a variable names, in the package, or where tools/package-data of its repository has left it.
const NAMED = process.env.ICU_LOCALE_DATA;
const FOLDERS = NAMED ? [NAMED] : [path.join(__dirname, 'data'), path.join(__dirname, '..', '..', 'out', 'data')];

function folderOf() {
  return FOLDERS.find((it) => fs.existsSync(path.join(it, `${BASE}.gz`))) || refuseWithoutData();
}

// The first lines of a packed text, as many as are wanted by the first one; null where that is all.
function firstLines(packed, wantedBy) {
  for (let length = 1024; length < packed.length; length += 8192) {
    const text = zlib.gunzipSync(packed.subarray(0, length), { finishFlush: zlib.constants.Z_SYNC_FLUSH });
    const lines = text.toString().split('\n');
    const wanted = wantedBy(lines[0]);
    if (wanted === Infinity) return null;
    if (lines.length > wanted) return wholeBlock(lines.slice(0, wanted));
  }
  return null;
}

// What is made of the bytes of a file, which is named where that fails.
function read(folder, name, made = (bytes) => bytes) {
  const file = path.join(folder, name);
  try {
    return made(fs.readFileSync(file));
  } catch (fault) {
    throw damaged(file, fault.message);
  }
}

function linesOf(folder, name, wantedBy = () => Infinity) {
  return read(folder, `${name}.gz`, (packed) => firstLines(packed, wantedBy) || zlib.gunzipSync(packed).toString().split('\n'));
}

// The texts of tables with every locale, and of their supplement, and the names in the flat form.
function wholeFolder(folder) {
  const texts = textsOfAll(linesOf(folder, ALL), path.join(folder, `${ALL}.gz`));
  return { folder, ...texts, flat: read(folder, FLAT) };
}

/** The texts of tables with the names of some locales, and of their supplement. */
function textsOfFolder(locales, kind) {
  const folder = folderOf();
  if (locales === 'all') return wholeFolder(folder);
  const languages = fs.readdirSync(folder).filter((it) => /^[a-z]+\.gz$/.test(it)).map((it) => path.basename(it, '.gz'));
  const wanted = languagesOf(locales).filter((it) => languages.includes(it));
  const base = wholeBase(linesOf(folder, BASE), path.join(folder, `${BASE}.gz`));
  const read = wanted.map((it) => [it, linesOf(folder, it, (head) => linesWanted(it, head, base.length - 2, locales))]);
  return { folder, ...textsOf(base, new Map(read), locales, kind) };
}

/** What the folder tells of itself by a name, as lines; none where it tells nothing. */
function toldByFolder(name) {
  const folder = FOLDERS.find((it) => fs.existsSync(path.join(it, name)));
  return folder ? fs.readFileSync(path.join(folder, name), 'utf8').split('\n').filter(Boolean) : [];
}

module.exports = { textsOfFolder, toldByFolder };
