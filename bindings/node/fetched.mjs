// The package for browsers, and for other places that fetch. bindings/node/build puts what it uses before these
// lines, and leaves both as browser.mjs, which imports nothing.

const HERE = import.meta.url;
let folder = new URL('data/', HERE);
let loading;
let places = {};

async function got(place) {
  const response = await fetch(place);
  if (!response.ok) throw refusal('NotLoaded', `${shown(String(place))} is answered by ${response.status}`);
  return response;
}

// The module of an address, a response, bytes, or of itself.
async function compiled(source) {
  const it = await source;
  if (it instanceof WebAssembly.Module) return it;
  if (it instanceof ArrayBuffer || ArrayBuffer.isView(it)) return WebAssembly.compile(it);
  const response = it instanceof Response ? it : await got(it);
  const isTold = /^application\/wasm/.test(response.headers.get('content-type'));
  return isTold ? WebAssembly.compileStreaming(response) : WebAssembly.compile(await response.arrayBuffer());
}

async function begun({ module = new URL('icu_locale.wasm', import.meta.url), data = folder }) {
  if (!hasWideMemory()) {
    const since = 'which Chromium and Firefox have from 2025 on';
    throw refusal('NotLoaded', `this engine has no memory of 64 bits for WebAssembly, ${since}`);
  }
  folder = new URL(data, globalThis.location ? globalThis.location.href : HERE); // as fetch reads an address
  stand({ calls: new Module(await WebAssembly.instantiate(await compiled(module), {})) });
}

// Refuses other places than those that are loaded, or are being loaded.
function sameAsLoaded(wanted) {
  const other = Object.keys(wanted).find((it) => wanted[it] !== undefined && String(wanted[it]) !== String(places[it]));
  if (other) throw refusal('NotLoaded', `the package is loaded with ${other} of another place; it is loaded once`);
}

/**
 * Loads the module, once, and says where CLDR's data is fetched. Where it fails it may be called again. With another place
 * than before it is refused.
 */
export async function load(options) {
  const wanted = optionsOf(options, 'module', 'data');
  if (loading) sameAsLoaded(wanted);
  else places = wanted;
  loading = loading || begun(wanted);
  try {
    await loading;
  } catch (fault) {
    loading = undefined;
    throw fault;
  }
  return {
    Tables, Locale, DisplayNames, Negotiator, Switcher, Refused, cldrVersion, cldrLocales, implementation, load,
  };
}

// The lines of a stream, or as many as are wanted by the first one. The stream is left as it is then: where it is cancelled,
// Node.js throws an error that nothing can catch.
async function firstLines(stream, wantedBy) {
  const lines = [''];
  let wanted = 0;
  for await (const part of stream.values({ preventCancel: true })) {
    const [end, ...more] = part.split('\n');
    lines[lines.length - 1] += end;
    lines.push(...more);
    if (lines.length > 1) wanted = wanted || (await wantedBy(lines[0]));
    if (lines.length > 1 && lines.length > wanted) return wholeBlock(lines.slice(0, wanted));
  }
  return lines;
}

// The bytes of a file of data, or null where there is none.
async function bytesOf(name) {
  const place = new URL(name, folder);
  const response = await fetch(place);
  if (response.status === 404) return null;
  if (!response.ok) throw refusal('NoCldr', `${place} is answered by ${response.status}`);
  return new Uint8Array(await response.arrayBuffer());
}

// The lines of a file of data, or null where there is none. A server may have unpacked it.
async function linesOf(name, wantedBy = () => Infinity) {
  const bytes = await bytesOf(name);
  if (!bytes) return null;
  const isPacked = bytes[0] === 31 && bytes[1] === 139;
  const stream = new Blob([bytes]).stream();
  try {
    const unpacked = isPacked ? stream.pipeThrough(new DecompressionStream('gzip')) : stream;
    return await firstLines(unpacked.pipeThrough(new TextDecoderStream()), wantedBy);
  } catch (fault) {
    throw damaged(new URL(name, folder), fault.message);
  }
}

function notFound(name) {
  throw refusal('NoCldr', `${new URL(name, folder)} is answered by 404, so that there is none of CLDR's data`);
}

// The texts of tables with every locale, and of their supplement, and the names in the flat form.
async function allFetched() {
  const file = `${ALL}.gz`;
  const [lines, flat] = await Promise.all([linesOf(file), bytesOf(FLAT)]);
  return { folder, ...textsOfAll(lines || notFound(file), new URL(file, folder)), flat: flat || notFound(FLAT) };
}

// The texts of tables with the names of some locales, and of their supplement.
async function textsFetched(locales, kind) {
  const languages = locales === 'all' ? [] : languagesOf(locales);
  await load();
  if (locales === 'all') return allFetched();
  const file = `${BASE}.gz`;
  const reading = linesOf(file).then((lines) => wholeBase(lines || notFound(file), new URL(file, folder)));
  const fetched = languages.filter((it) => /^[a-z]{2,8}$/.test(it)).map(async (it) => [
    it, await linesOf(`${it}.gz`, async (head) => linesWanted(it, head, (await reading).length - 2, locales)),
  ]);
  const [base, ...files] = await Promise.all([reading, ...fetched]);
  return { folder, ...textsOf(base, new Map(files.filter(([, lines]) => lines)), locales, kind) };
}

// What the folder tells of itself by a name, as lines; none where it tells nothing.
async function toldFetched(name) {
  await load();
  return ((await linesOf(name)) || []).filter(Boolean);
}

function notLoaded() {
  throw refusal('NotLoaded', 'the module is there once load() has ended: await load()');
}

stand({ calls: new Proxy({}, { get: notLoaded }), textsOfCldr: textsFetched, toldOfCldr: toldFetched });

export const implementation = 'module';
export { Tables, Locale, DisplayNames, Negotiator, Switcher, Refused, cldrVersion, cldrLocales };
