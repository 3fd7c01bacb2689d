// What the page shows. Each answer is the library's; this file says which questions are asked, and where the answers go.
import { Refused, Tables } from 'icu_locale';
import { WORDS } from './words.js';

const SYNTAXES = ['locales', 'bcp47', 'posix'];
const EXAMPLES = ['zh-TW', 'iw', 'und-Arab-PK', 'sr_RS@latin', 'i-klingon', 'en-u-ca-islamicc', 'hy-SU', 'de--AT'];
// The languages that a name is told in.
const MENU = ['ar', 'de', 'en', 'es', 'fa', 'fr', 'he', 'hi', 'ja', 'ko', 'ru', 'sr-Latn', 'sw', 'tr', 'ur', 'zh', 'zh-Hant'];
const list = ['en', 'de', 'ar', 'sr-Latn', 'zh-Hant'];
const at = (id) => document.getElementById(id);
let tables;

function word(name) {
  return WORDS[document.documentElement.lang][name];
}

function element(name, properties, ...children) {
  const made = Object.assign(document.createElement(name), properties);
  made.append(...children);
  return made;
}

function identifier(text) {
  return element('code', { dir: 'ltr', textContent: text });
}

// Shows what a call gives, or its refusal in words.
function show(id, call) {
  const output = at(id);
  output.classList.remove('refused');
  try {
    output.replaceChildren(...[call()].flat());
  } catch (refused) {
    if (!(refused instanceof Refused)) throw refused;
    output.classList.add('refused');
    output.replaceChildren(element('bdi', { lang: 'en', textContent: refused.message }));
  }
}

// The first syntax that reads a text, or the refusal of the first one.
function syntaxOf(text) {
  const faults = [];
  for (const syntax of SYNTAXES) {
    try {
      tables.canonicalize(text, { syntax });
      return syntax;
    } catch (refused) {
      faults.push(refused);
    }
  }
  throw faults[0];
}

// The name of a canonical form: names are looked up by no alias.
function named(text, language, syntax) {
  const canonical = tables.canonicalize(text, { syntax });
  return element('bdi', { lang: language, textContent: tables.name(canonical, language, 'light', { fallback: true }) });
}

function showText() {
  if (!tables) return;
  const text = at('text').value;
  const language = at('language').value || document.documentElement.lang;
  let syntax;
  show('reads', () => {
    syntax = syntaxOf(text);
    return word(syntax);
  });
  at('text').setAttribute('aria-invalid', String(!syntax));
  const among = (call) => () => (syntax ? call() : element('span', { className: 'quiet', textContent: '—' }));
  show('canonical', among(() => identifier(tables.canonicalize(text, { syntax }))));
  show('maximal', among(() => identifier(tables.maximize(text, { syntax }))));
  show('minimal', among(() => identifier(tables.minimize(text, { syntax }))));
  show('direction', among(() => word(tables.direction(text, { syntax }) || 'unknown')));
  show('name', among(() => named(text, language, syntax)));
}

// The list, with what is served, and with what is no identifier.
function showList(served, wrong) {
  at('list').replaceChildren(...list.map((it, place) => {
    const button = element('button', { type: 'button', textContent: '×', ariaLabel: `${word('removes')} ${it}` });
    button.addEventListener('click', () => remove(place));
    const item = element('li', {}, identifier(it), button);
    if (it === served) item.setAttribute('aria-current', 'true');
    item.classList.toggle('refused', place === wrong);
    return item;
  }));
}

function showReader() {
  if (!tables) return;
  let served;
  let wrong;
  show('served', () => {
    try {
      served = tables.serve(at('header').value, list);
    } catch (refused) {
      wrong = refused.place;
      throw refused;
    }
    if (served === null) return element('span', { className: 'quiet', textContent: word('nothing') });
    return [identifier(served), ' ', element('span', { className: 'quiet' }, named(served, document.documentElement.lang))];
  });
  showList(served, wrong);
}

function remove(place) {
  list.splice(place, 1);
  showReader();
  const buttons = at('list').querySelectorAll('button');
  (buttons[Math.min(place, buttons.length - 1)] || at('another')).focus();
}

function add(event) {
  event.preventDefault();
  const another = at('another').value.trim();
  if (another && !list.includes(another)) list.push(another);
  at('another').value = '';
  at('another').focus();
  showReader();
}

// Fills a list of languages, each with its own name and its name in the language of the page.
function fill(id, languages) {
  const chosen = at(id).value || document.documentElement.lang;
  const rows = tables.menu(languages, document.documentElement.lang);
  at(id).replaceChildren(...rows.map(({ locale, name, own }) => element('option', {
    value: locale, lang: locale, textContent: name === own ? own : `${own} – ${name}`,
  })));
  at(id).value = chosen;
}

// Puts the page into a language, which also gives its direction.
function speak(language) {
  const page = document.documentElement;
  page.lang = language;
  page.dir = tables.direction(language);
  document.title = word('title');
  for (const it of document.querySelectorAll('[data-word]')) it.textContent = word(it.dataset.word);
  for (const it of document.querySelectorAll('[data-label]')) it.ariaLabel = word(it.dataset.label);
  fill('page', Object.keys(WORDS));
  fill('language', MENU);
  showText();
  showReader();
}

function listen() {
  at('examples').replaceChildren(...EXAMPLES.map((it) => element('button', { type: 'button', dir: 'ltr', textContent: it })));
  at('examples').addEventListener('click', ({ target }) => {
    if (target.localName !== 'button') return;
    at('text').value = target.textContent;
    showText();
  });
  at('text').addEventListener('input', showText);
  at('language').addEventListener('input', showText);
  at('header').addEventListener('input', showReader);
  at('add').addEventListener('submit', add);
  at('page').addEventListener('input', () => {
    at('language').value = '';
    speak(at('page').value);
  });
  showList();
}

// The first answers come by the names of one language; those of all others come then.
async function begin() {
  listen();
  tables = await Tables.cldr([document.documentElement.lang]);
  showText();
  showReader();
  performance.mark('answered');
  const all = await Tables.cldr(MENU);
  tables.close();
  tables = all;
  speak(tables.serve(navigator.languages.join(', '), Object.keys(WORDS), { default: 'en' }));
  performance.mark('ready');
}

begin().catch((fault) => {
  at('reads').classList.add('refused');
  at('reads').textContent = fault.message;
});
