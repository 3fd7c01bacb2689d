/** Likely subtags, canonical forms, directions, names and negotiation of locale identifiers, by the proved library. */

/** What answers: the module for WebAssembly, or the addon where this Node.js has no memory of 64 bits. */
export const implementation: 'module' | 'addon';

/** The package, which is loaded already. In a browser the same call loads it. */
export function load(): Promise<typeof import('./index.js')>;

/** A text: a string, or its bytes. */
export type Text = string | Uint8Array;

/**
 * How a text is read: a locale identifier of UTS #35, besides a tag of RFC 5646, or besides a name of a POSIX locale.
 * `locales` where none is named, but for lists.
 */
export interface Reading {
  syntax?: 'locales' | 'bcp47' | 'posix';
}

/** Which kinds of names are asked, in order: docs/PROGRAM.md of the repository tells them. */
export type Chain =
  | 'tiny' | 'light' | 'heavy' | 'short-light' | 'short-heavy' | 'long-light' | 'long-heavy' | 'menu-light' | 'menu-heavy'
  | 'short-menu-light' | 'short-menu-heavy';

/** Which names are asked of a script, of a region and of a variant alone, in order. */
export type ScriptChain = 'tiny' | 'light' | 'heavy' | 'short-heavy';
export type RegionChain = 'tiny' | 'short-tiny' | 'light' | 'short-light';
export type VariantChain = 'heavy';

/** Subtags that have names. */
export type SubtagKind = 'languages' | 'scripts' | 'regions' | 'variants';

/** Sets of exemplar characters. */
export type ExemplarSet = 'main' | 'auxiliary' | 'punctuation' | 'numbers' | 'index';

/** A name, and whether a part of it has none, and is a subtag. */
export interface Named {
  name: string;
  isRaw: boolean;
}

/** A part of an identifier that is not valid, and where it begins and ends in the identifier as it was handed in. */
export interface Invalid {
  kind: 'language' | 'script' | 'region' | 'variant' | 'attribute' | 'keyword' | 'field' | 'extension';
  text: string;
  status: 'deprecated' | 'reserved' | 'unlisted' | 'other_region';
  start: number;
  end: number;
}

/** How a name is made: with `fallback`, in the first locale after the preferences that the tables have. */
export type Naming = Reading & { fallback?: boolean };

/** Why a call gives no answer. */
export type Code =
  | 'Closed' | 'Memory' | 'Json' | 'Shape' | 'Command' | 'Table' | 'Negotiate' | 'List' | 'Unsettled' | 'Shared'
  | 'InvalidLanguage' | 'InvalidSubtag' | 'InvalidText' | 'NoFixedPoint' | 'NoSubdivisionFixedPoint' | 'NoValueFixedPoint'
  | 'NoFieldFixedPoint' | 'Circle' | 'IdentifierNotFound' | 'NoCldr' | 'NoLoan' | 'NotLoaded';

/** The header Accept-Language of a request, the lines of several, or none. */
export type Headers = Text | readonly Text[] | null | undefined;

/** A call that gives no answer. */
export class Refused extends Error {
  constructor(code: Code, message?: string, place?: number);
  /** The name of the refusal. */
  readonly code: Code;
  /** Where the code is `List`: the place of what is no identifier, counted from 0. */
  readonly place?: number;
  /** Of a text that is no locale identifier: the first piece that none can have there, empty where the text ends too early. */
  readonly subtag?: string;
  /** Where that piece begins, and where it ends. */
  readonly start?: number;
  readonly end?: number;
}

/** A language of a menu: its locale as it was handed in, its name in the language of the menu, and its own name. */
export interface MenuRow {
  locale: string;
  name: string;
  own: string;
}

/** A request that is met: its place, and that of the available identifier. Both are counted from 0. */
export interface Match {
  request: number;
  available: number;
}

/** What is served to a reader: its place, counted from 0, and the locale that formats for the reader. */
export interface Resolved {
  available: number;
  locale: string;
}

/** What is near enough to be served. */
export interface Matching {
  /** The distance that is too far, 65535 at most; 50 where none is named. */
  threshold?: number;
  /** What each request after the first counts more, 65535 at most; 5 where none is named. By 0 the nearest of all is served. */
  demotion?: number;
  /** A difference of languages counts a quarter, so that one of scripts weighs more. */
  favorScript?: boolean;
  /** The first of what is available is served where nothing else is, even if the header refuses it. */
  orFirst?: boolean;
}

/** Tables, by `Tables.cldr` or `Tables.fromJson`. A worker has its own, or borrows what another one lends. */
export class Tables {
  private constructor();
  /**
   * The tables of CLDR's data that this package has inside, with the names of some locales, as `['en', 'zh-Hant']`, and
   * their supplement, by which `serve` and `fallback` go, and which has what parts of extensions are called in these locales,
   * but for subdivisions and time zones. The likely tables are settled. `all` is every locale. In the place of one that CLDR
   * has no names in comes the first of its chain; where there is none, or no data inside, or a file is damaged, it is `NoCldr`.
   */
  static cldr(locales?: readonly string[] | 'all'): Tables;
  /**
   * The tables of a JSON text, and their supplement of another one: the parents of locales, the match rules by which a reader
   * is served, aliases of values, and which codes are valid.
   */
  static fromJson(json: Text, options?: { supplement?: Text }): Tables;
  /** The same tables once more. They are in memory once. */
  share(): Tables;
  /**
   * Lends names that lie in the flat form, in place of those lent before. A name is asked of the tables' own rows first, and
   * then of these. The bytes are copied once into the memory of the calls. Where they have not the form it is `Shape`, and
   * `Shared` where these tables were shared or lent to a worker, or a negotiator or a switcher has them.
   */
  lendNames(names: Uint8Array): void;
  /**
   * The names of the tables themselves, without those that are lent to them, in the flat form. It is `Shape` where a key or a
   * text has more than 65,535 bytes.
   */
  flatNames(): Uint8Array;
  /**
   * Lends the tables to other workers of this process: a number that may be posted to them, for `borrow`. The loan ends
   * where these tables are closed or collected; what was borrowed stays. The module refuses both as `NoLoan`.
   */
  lend(): bigint;
  /** The tables that another worker has lent. They are in memory once. */
  static borrow(number: bigint): Tables;
  /**
   * What serves a reader one of the identifiers that are available. It holds these tables too. `syntax` says how these and
   * the requests are read: as identifiers alone where none is named, or with extensions, which have no part in what is met.
   */
  negotiator(available: readonly string[], options?: Reading): Negotiator;
  /**
   * What serves a reader by the headers Accept-Language of a request. It holds these tables too. What it serves is one of
   * the available identifiers as it was handed in, or the default where none is near enough: null if none is named.
   */
  switcher<Default = null>(
    available: readonly string[], options?: Matching & { default?: Default },
  ): Switcher<Default>;
  /**
   * What is served of the available identifiers, in their own spelling, for the headers Accept-Language of a request: one,
   * several or none. The default where none is near enough. The tables need match rules, which a supplement has. What was
   * last available is kept, so that it is read once.
   */
  serve<Default = null>(
    headers: Headers, available: readonly string[], options?: { default?: Default },
  ): string | Default;
  /**
   * What is nearest to requests, the most wanted first, of the available identifiers, in their own spelling. The default
   * where none is near enough. What was last available is kept, as `serve` does.
   */
  nearest<Default = null>(
    requests: readonly string[], available: readonly string[], options?: { default?: Default },
  ): string | Default;
  /** How far an identifier that may be served is from one that is desired, by the match rules. */
  distance(desired: Text, supported: Text, options?: Reading): number;
  /** Whether two texts have one canonical form. */
  areSame(first: Text, second: Text, options?: Reading): boolean;
  /** What the program icu_locale_cli answers to a line, by the words of a command. */
  answer(command: Text, line: Text): string;
  /** The maximal form: with the likely script and region. Extensions stay. */
  maximize(identifier: Text, options?: Reading): string;
  /** The minimal form: the shortest with the same maximal form. */
  minimize(identifier: Text, options?: Reading & { favorScript?: boolean }): string;
  /**
   * The canonical form, that of the language after `t` and of the values at `rg` and `sd` too, and by the aliases of values in
   * a supplement those at the keys of `u` and `t`.
   */
  canonicalize(identifier: Text, options?: Reading): string;
  /** The canonical form of an identifier alone, and that of a value at the key `rg`. */
  canonicalize(identifier: Text, value: Text): [string, string];
  /**
   * The key of a locale in a store: its canonical form, with the shortest identifier that means the same. Texts that mean the
   * same have one key. Without extensions, the key of the identifier alone.
   */
  key(identifier: Text, options?: Reading & { extensions?: boolean }): string;
  /** Which way the likely script runs; null where that is not known. */
  direction(identifier: Text, options?: Reading): 'ltr' | 'rtl' | null;
  /** The identifiers that a loader asks after one another, from this one, without its extensions, to `und`. */
  fallback(identifier: Text, options?: Reading): string[];
  /**
   * The name in the language of the preferences, with what its extensions say where the supplement has names of extensions
   * in that language, and without them else. The chain is `light` where none is named.
   */
  name(identifier: Text, preferences: string, chain?: Chain | Naming, options?: Naming): string;
  /** The same, and whether a part of it has no name, and is a subtag. */
  nameParts(identifier: Text, preferences: string, chain?: Chain | Naming, options?: Naming): Named;
  /**
   * The languages of a list for a menu: each with its name in one language and its own name, in the order of the first. That
   * is the order of `Intl.Collator` where it knows the language, and else that by code point. The chain and `fallback` are
   * those of `name`.
   */
  menu(
    locales: readonly string[], language: string, chain?: Chain | { fallback?: boolean }, options?: { fallback?: boolean },
  ): MenuRow[];
  /**
   * The parts of an identifier that are not valid (UTS #35 Part 1, Validity Data); none where all are. The tables need a table
   * of validity, which a supplement has.
   */
  validate(identifier: Text, options?: Reading): Invalid[];
  /** Whether an identifier is one, and each part of it is valid. */
  isValid(identifier: Text, options?: Reading): boolean;
  /** What a language alone is called in the language of the preferences. The chain is `light` where none is named. */
  languageName(language: Text, preferences: string, chain?: Chain): Named;
  /** The same of a script; where the tables have no name for it, it is itself and raw. */
  scriptName(script: Text, preferences: string, chain?: ScriptChain): Named;
  /** The same of a region. */
  regionName(region: Text, preferences: string, chain?: RegionChain): Named;
  /** The same of a variant. It has one chain. */
  variantName(variant: Text, preferences: string, chain?: VariantChain): Named;
  /** The subtags of a kind that the tables have names for in a locale, in the order of their texts. */
  listed(kind: SubtagKind, locale: string): string[];
  /**
   * Whether a set of a locale's exemplar characters has a text: a character, or several that go together. The tables need that
   * set in that locale. Bytes that are no UTF-8 are refused as `InvalidText`.
   */
  hasExemplar(set: ExemplarSet, locale: string, text: Text): boolean;
  /** What the data calls itself, as `41` for that of CLDR 41; undefined where it has no name. */
  dataName(): string | undefined;
  /** Whether the likely tables are settled. It looks at each row. */
  isSettled(): boolean;
  /** Lets the tables go. A second call does nothing. */
  close(): void;
}

/** What stands in the place of a locale's own, as in the options of `Intl.Locale`. */
export interface LocaleOptions {
  language?: string;
  script?: string;
  region?: string;
  calendar?: string;
  collation?: string;
  hourCycle?: string;
  caseFirst?: string;
  numeric?: boolean;
  numberingSystem?: string;
}

/** The version of CLDR whose data is inside, as `41`; undefined where there is none, or CLDR does not tell it. */
export function cldrVersion(): string | undefined;
/** The locales that CLDR has names in, by which `Tables.cldr` opens them, in the order of their texts. */
export function cldrLocales(): string[];

/** The options of `Intl.DisplayNames`. */
export interface DisplayNamesOptions {
  type: 'language' | 'region' | 'script';
  style?: 'long' | 'short' | 'narrow';
  fallback?: 'code' | 'none';
  languageDisplay?: 'dialect' | 'standard';
}

/** Names of languages, regions or scripts in one language, by the ways of `Intl.DisplayNames`, over CLDR's data. */
export class DisplayNames {
  /** In a browser data is fetched, and `load` makes one. Where CLDR has no names in any of the locales it is `NoCldr`. */
  constructor(locales: string | Locale | readonly (string | Locale)[], options: DisplayNamesOptions);
  /** The same, once the data has been fetched. */
  static load(
    locales: string | Locale | readonly (string | Locale)[], options: DisplayNamesOptions,
  ): Promise<DisplayNames>;
  /** The name of a code. Where there is none it is the code as it is written, or undefined by the option `fallback`. */
  of(code: string | Locale): string | undefined;
  /** What was chosen. */
  resolvedOptions(): DisplayNamesOptions & { locale: string };
}

/**
 * A locale identifier with its parts, which `Intl.Locale` names alike where it has them. It does not change. What is not
 * there is undefined, and a list without members is empty.
 */
export class Locale {
  /**
   * Reads a text, in a syntax, with parts and values in the place of its own. `InvalidLanguage` and `InvalidSubtag` refuse
   * what is no locale identifier.
   */
  constructor(text: Text, options?: Reading & LocaleOptions);
  /** `und` where none is known. */
  readonly language: string;
  readonly script: string | undefined;
  readonly region: string | undefined;
  readonly variants: readonly string[];
  /** Language, script, region and variants. */
  readonly baseName: string;
  /** The attributes of the extension `u`. */
  readonly attributes: readonly string[];
  /** The keywords of the extension `u`, by their keys. The value `true` is empty. */
  readonly keywords: Readonly<Record<string, string>>;
  /** The calendar that is asked for, as `buddhist`. */
  readonly calendar: string | undefined;
  /** The order of texts that is asked for, as `phonebk`. */
  readonly collation: string | undefined;
  /** `h11`, `h12`, `h23` or `h24`. */
  readonly hourCycle: string | undefined;
  /** The digits that are asked for, as `latn`. */
  readonly numberingSystem: string | undefined;
  /** `upper`, `lower` or `false`: which case comes first in an order. */
  readonly caseFirst: string | undefined;
  /** Whether digits are put in order as numbers. */
  readonly numeric: boolean;
  /**
   * The locale with its likely script and region, by CLDR's tables inside, or by others. In a browser tables have to be
   * handed in: else it is refused as `NotLoaded`.
   */
  maximize(tables?: Tables): Locale;
  /** The shortest locale that means the same. */
  minimize(tables?: Tables): Locale;
  /** Which way the likely script runs; undefined where that is not known. */
  getTextInfo(tables?: Tables): { direction: 'ltr' | 'rtl' | undefined };
  /** The language that the extension `t` tells. */
  readonly transformLanguage: string | undefined;
  /** The fields of the extension `t`, by their keys. */
  readonly fields: Readonly<Record<string, string>>;
  /** The other extensions, by their letters. */
  readonly extensions: Readonly<Record<string, string>>;
  readonly privateUse: string | undefined;
  /** The whole, as it is written: two locales are equal exactly if they are written alike. */
  toString(): string;
  /** The whole, as it is written. */
  toJSON(): string;
}

/** What is available, by `tables.negotiator`. */
export class Negotiator {
  private constructor();
  /** The identifiers that are available, as they were handed in. */
  readonly available: readonly string[];
  /**
   * The first request that an available identifier means, and the first such identifier; null where there is none. It is
   * refused as `Unsettled` where the likely tables are not settled.
   */
  negotiate(requests: readonly string[]): Match | null;
  /** What the program icu_locale_cli answers to a line, by the words of a command. */
  answer(command: Text, line: Text): string;
  /** Lets the list and the tables go. A second call does nothing. */
  close(): void;
}

/** What is available, by `tables.switcher`, and which of it is served. */
export class Switcher<Default = null> {
  private constructor();
  /** The identifiers that are available, as they were handed in. */
  readonly available: readonly string[];
  /** What is served for one header Accept-Language, for several or for none; the default where nothing is near enough. */
  serve(headers: Headers): string | Default;
  /** What is nearest to requests, the most wanted first; the default where nothing is near enough. */
  nearest(requests: readonly string[]): string | Default;
  /**
   * What is nearest to requests, with the region, the variants and the extensions of the one that wished it: the locale by
   * which numbers and dates are written for this reader. Null where nothing is near enough, whatever the default.
   */
  resolved(requests: readonly string[]): Resolved | null;
  /** Lets the list and the tables go. A second call does nothing. */
  close(): void;
}
