/** The package in a browser, and where else it is fetched. index.d.ts says what each call takes. */
import { Tables as TablesHere, Text } from './index.js';

export * from './index.js';
export const implementation: 'module';

/** The version of CLDR whose data is fetched; undefined where it does not tell it. */
export function cldrVersion(): Promise<string | undefined>;
/** The locales that CLDR has names in, in the order of their texts. */
export function cldrLocales(): Promise<string[]>;

/** Where the module and CLDR's data are. An address is read as `fetch` reads it. */
export interface Places {
  /** The address of icu_locale.wasm, a response of it, its bytes, or what is compiled of it. */
  module?: string | URL | Response | Promise<Response> | BufferSource | WebAssembly.Module;
  /** The address of the folder `data`, which ends with a slash. */
  data?: string | URL;
}

/**
 * Loads the module, once, and says where CLDR's data is fetched. Where no place is named, both are beside browser.mjs.
 * What can not be loaded is refused as `NotLoaded`, and so are other places than before.
 */
export function load(places?: Places): Promise<typeof import('./browser.mjs')>;

/** Tables, by `Tables.cldr` or, once `load` has ended, `Tables.fromJson`. */
export type Tables = TablesHere;
export const Tables: {
  readonly prototype: TablesHere;
  /**
   * The tables of CLDR's data, fetched from its folder, with the names of some locales, and their supplement. The module is
   * loaded first. In the place of one that CLDR has no names in comes the first of its chain.
   */
  cldr(locales?: readonly string[] | 'all'): Promise<TablesHere>;
  fromJson(json: Text, options?: { supplement?: Text }): TablesHere;
};
