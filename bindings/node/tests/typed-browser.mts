// The calls of a browser with the types that they take and give, for tsc --strict.
import { cldrLocales, cldrVersion, DisplayNames, load, Tables, Refused, Switcher } from 'icu_locale/browser';

const pending: Promise<Tables> = Tables.cldr(['en']);
const tables: Tables = await pending;
const again: Tables = (await load({ module: new URL('icu_locale.wasm', import.meta.url), data: '/data/' })).Tables.fromJson('{}');
const name: string = tables.name('it', 'en', 'light', { fallback: true });
const rows: { locale: string; name: string; own: string }[] = tables.menu(['en', 'de'], 'en');
const version: string | undefined = await cldrVersion();
const locales: string[] = await cldrLocales();
const names: DisplayNames = await DisplayNames.load('de', { type: 'script' });
const switcher: Switcher<string> = again.switcher(['en'], { default: 'en' });
try {
  await Tables.cldr('all');
} catch (fault) {
  if (!(fault instanceof Refused) || fault.code !== 'NotLoaded') throw fault;
}
// @ts-expect-error: tables of a browser are yet to come
Tables.cldr(['en']).name('it', 'en');
// @ts-expect-error: no worker of a browser borrows
Tables.borrow(1n);
export { name, rows, version, locales, names, switcher };
