// Each call with the types that it takes and gives, for tsc --strict.
import {
  Chain, DisplayNames, ExemplarSet, Headers, Invalid, Locale, Match, Matching, MenuRow, Named, Negotiator, Refused, RegionChain,
  Resolved, ScriptChain, SubtagKind, Switcher, Tables, cldrLocales, cldrVersion, implementation, load,
} from 'icu_locale';

const tables: Tables = Tables.fromJson('{}');
const opened: Tables[] = [Tables.cldr(), Tables.cldr(['en', 'de']), Tables.cldr('all')];
const forms: string[] = [tables.maximize('zh'), tables.minimize(new Uint8Array(2), { favorScript: true })];
const canonical: string = tables.canonicalize('sh');
const both: [string, string] = tables.canonicalize('sh', 'abcdefg');
const direction: 'ltr' | 'rtl' | null = tables.direction('ar');
const settled: boolean = tables.isSettled();
const flat: Uint8Array = tables.flatNames();
const lent: void = tables.lendNames(flat);
const negotiator: Negotiator = tables.negotiator(['en']);
const match: Match | null = negotiator.negotiate(['fr', 'en']);
const extended: Negotiator = tables.negotiator(['en-u-hc-h12'], { syntax: 'locales' });
const switcher: Switcher = Tables.borrow(tables.share().lend()).switcher(negotiator.available);
const served: (string | null)[] = [switcher.serve(['fr', 'en']), tables.serve(undefined, ['en']), tables.serve('en', ['en'])];
const headers: Headers[] = [null, undefined, 'fr', new Uint8Array(2), ['fr', new Uint8Array(2)]];
const sure: Switcher<string> = tables.switcher(['en'], { default: 'en' });
const always: string[] = [...headers.map((it) => sure.serve(it)), sure.nearest(['fr']), tables.serve(null, ['en'], { default: 'en' })];
const other: string | number = tables.nearest(['fr'], ['en'], { default: 5 });
const matching: Matching = { threshold: 40, demotion: 0, favorScript: true, orFirst: true };
const near: Switcher<string> = tables.switcher(['en'], { ...matching, default: 'en' });
const resolved: Resolved | null = tables.switcher(['en'], matching).resolved(['fr', near.serve(null)]);
const distance: number = tables.distance('en-AU', new Uint8Array(2), { syntax: 'bcp47' });
const same: boolean = tables.areSame('sh', 'sr-Latn');
const locale: Locale = new Locale('zh-Hant-TW', { syntax: 'bcp47' });
const parts: (string | undefined)[] = [locale.language, locale.script, ...locale.variants, locale.keywords.ca];
const maximal: Locale = new Locale('zh', { calendar: 'roc', numeric: true }).maximize(tables);
const runs: 'ltr' | 'rtl' | undefined = maximal.getTextInfo().direction;
const chain: Chain = 'menu-light';
const named: { name: string; isRaw: boolean } = tables.nameParts('it', 'en', chain, { fallback: true });
const faults: Invalid[] = tables.validate(new Uint8Array(2), { syntax: 'posix' });
const places: number[] = faults.filter((it) => it.kind === 'region' && it.status === 'deprecated').map((it) => it.start);
const [ofScript, ofRegion, kind, set]: [ScriptChain, RegionChain, SubtagKind, ExemplarSet] = ['short-heavy', 'short-tiny', 'regions', 'main'];
const codes: Named[] = [
  tables.languageName('it', 'en', chain), tables.scriptName('Latn', 'en', ofScript), tables.regionName('US', 'en', ofRegion),
  tables.variantName('fonipa', 'en', 'heavy'),
];
const listed: string[] = tables.listed(kind, 'en');
const facts: boolean[] = [tables.isValid('en'), tables.hasExemplar(set, 'en', 'a')];
const data: string | undefined = tables.dataName();
const short: string[] = [named.name, tables.name('it', 'en', { fallback: true }), cldrVersion() || '', ...cldrLocales()];
const region: string | undefined = new DisplayNames(['de', locale], { type: 'region', style: 'short' }).of('US');
const menu: MenuRow[] = tables.menu(['en', 'de'], 'en', 'light', { fallback: true });
const by: 'module' | 'addon' = implementation;
load().then((it) => it.Tables.cldr(['en']));
try {
  tables.name('it', 'en', 'menu-light');
} catch (fault) {
  if (fault instanceof Refused && fault.code === 'List') throw new Error(`${fault.place}`);
}
// @ts-expect-error: a number is no text
tables.maximize(5);
// @ts-expect-error: one text is no list
tables.negotiator('en');
// @ts-expect-error: one text is no list, but for `all`
Tables.cldr('en');
// @ts-expect-error: a number is no header
tables.serve(5, ['zh']);
// @ts-expect-error: without a default there may be none
tables.serve('yue', ['zh']).length;
// @ts-expect-error: a threshold is a number
tables.switcher(['de'], { threshold: '40' });
// @ts-expect-error: there may be none
near.resolved(['de']).locale;
// @ts-expect-error: a syntax is an option
tables.maximize('de', 'posix');
// @ts-expect-error: no syntax is called so
tables.negotiator(['de'], { syntax: 'utf8' });
// @ts-expect-error: a locale does not change
locale.region = 'HK';
// @ts-expect-error: tables are made by calls of their own
new Tables();
// @ts-expect-error: no chain is called so
tables.name('it', 'en', 'lihgt');
// @ts-expect-error: a region has no such chain
tables.regionName('US', 'en', 'heavy');
// @ts-expect-error: no kind is called so
tables.listed('region', 'en');
// @ts-expect-error: data may have no name
tables.dataName().length;
// @ts-expect-error: no names of currencies
new DisplayNames('de', { type: 'currency' });
// @ts-expect-error: no refusal is called so
new Refused('Nothing');
export { opened, forms, canonical, both, direction, settled, match, extended, served, always, other, resolved, distance, same, parts, runs, short, region, menu, by, places, codes, listed, facts, data };
