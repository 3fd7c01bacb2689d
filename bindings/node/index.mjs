// The package for `import` in Node.js; index.js has what it is.
import calls from './index.js';

export const {
  Tables, Locale, DisplayNames, Negotiator, Switcher, Refused, cldrVersion, cldrLocales, implementation, load,
} = calls;
export default calls;
