// The words of the page in its languages.
export const WORDS = {
  en: {
    title: 'Locale identifiers',
    about: 'What a text means as a locale, and what a reader is served. The proved library answers in this page; nothing is sent.',
    page: 'Language of the page', identifier: 'An identifier', text: 'A text', examples: 'Examples', reads: 'Reads as',
    canonical: 'Canonical form', maximal: 'Maximal form', minimal: 'Minimal form', direction: 'Direction', nameIn: 'Name in',
    reader: 'A reader', header: 'The header Accept-Language', available: 'What is available', another: 'Another one', adds: 'Add',
    removes: 'Remove', served: 'Is served', nothing: 'nothing: none is near enough', unknown: 'not known',
    locales: 'a locale identifier', bcp47: 'a language tag of RFC 5646', posix: 'a name of a POSIX locale',
    ltr: 'left to right', rtl: 'right to left',
  },
  de: {
    title: 'Kennungen von Sprachen und Regionen',
    about: 'Was ein Text als Kennung bedeutet und was ein Leser erhält. Die bewiesene Bibliothek antwortet in dieser Seite; nichts wird gesendet.',
    page: 'Sprache der Seite', identifier: 'Eine Kennung', text: 'Ein Text', examples: 'Beispiele', reads: 'Gelesen als',
    canonical: 'Kanonische Form', maximal: 'Längste Form', minimal: 'Kürzeste Form', direction: 'Schreibrichtung', nameIn: 'Name auf',
    reader: 'Ein Leser', header: 'Der Header Accept-Language', available: 'Was es gibt', another: 'Noch eine', adds: 'Hinzufügen',
    removes: 'Entfernen', served: 'Erhält', nothing: 'nichts: keine ist nah genug', unknown: 'nicht bekannt',
    locales: 'eine Locale-Kennung', bcp47: 'eine Sprachkennung nach RFC 5646', posix: 'ein Name einer POSIX-Locale',
    ltr: 'von links nach rechts', rtl: 'von rechts nach links',
  },
  ar: {
    title: 'معرّفات اللغات والمناطق',
    about: 'ما يعنيه نص بوصفه معرّفًا، وما يُقدَّم إلى القارئ. تجيب المكتبة المبرهنة داخل هذه الصفحة، ولا يُرسَل شيء.',
    page: 'لغة الصفحة', identifier: 'معرّف', text: 'نص', examples: 'أمثلة', reads: 'يُقرأ بوصفه',
    canonical: 'الصيغة القياسية', maximal: 'الصيغة الأطول', minimal: 'الصيغة الأقصر', direction: 'اتجاه الكتابة', nameIn: 'الاسم بلغة',
    reader: 'قارئ', header: 'الترويسة Accept-Language', available: 'المتاح', another: 'معرّف آخر', adds: 'إضافة',
    removes: 'إزالة', served: 'يُقدَّم له', nothing: 'لا شيء: لا لغة قريبة بما يكفي', unknown: 'غير معروف',
    locales: 'معرّف لغة ومنطقة', bcp47: 'وسم لغة وفق RFC 5646', posix: 'اسم إعدادات POSIX',
    ltr: 'من اليسار إلى اليمين', rtl: 'من اليمين إلى اليسار',
  },
};
