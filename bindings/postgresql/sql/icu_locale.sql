CREATE EXTENSION icu_locale;
-- each function
SELECT icu_locale_data_version();
SELECT t, is_locale(t) FROM unnest('{en,EN_us,de-u-co-phonebk,en-USA,en_US.UTF-8,i-klingon,root,"","en ","en\nde",en-x-a}'::text[]) t;
SELECT t, locale_canonical(t), locale_maximal(t), locale_minimal(t), locale_key(t), locale_direction(t), locale_chain(t)
FROM unnest('{iw,sh,zh_hant_tw,EN-latn-us,und-Zyyy,ar,de-1996-u-co-phonebk,en-u-ca-islamicc-kb-yes,hy-SU}'::text[]) t;
-- a key is its own key, which a minimal form is not always
SELECT locale_minimal('und-CN-guoyu'), locale_key('und-CN-guoyu'), locale_key(locale_minimal('und-CN-guoyu'));
SELECT locale_identifier_key('de-DE-u-co-phonebk'), locale_key('de-DE-u-co-phonebk');
SELECT locale_canonical('en_US.UTF-8', 'posix'), locale_canonical('i-klingon', 'bcp47'), locale_canonical('C', 'posix');
SELECT locale_distance('en-AU', 'en-GB'), locale_distance('en', 'de'), locale_distance('de-u-co-phonebk', 'de'), locale_distance('iw', 'he');
SELECT locale_name('de-AT', 'en'), locale_name('de-AT', 'de-CH'), locale_name('de-u-co-phonebk', 'EN_us'), locale_name('iw', 'sh');
-- the detail has the folder, which is that of the build
\set VERBOSITY terse
SELECT locale_name('de', 'tlh');
\set VERBOSITY default
-- null in, null out
SELECT locale_key(NULL), locale_name('de', NULL), locale_serve(NULL, '{en}'), locale_serve('en', NULL);
-- refusals
SELECT locale_canonical('en-USA');
\echo :LAST_ERROR_SQLSTATE
SELECT locale_key('de_DE@euro');
\echo :LAST_ERROR_SQLSTATE
SELECT locale_canonical('en', 'xml');
\echo :LAST_ERROR_SQLSTATE
SELECT locale_distance('en de', 'fr');
SELECT locale_distance('en', '');
SELECT locale_maximal(E'en\tde');
SELECT locale_name('en', 'en de');
-- how they may be used
SELECT proname, provolatile, proisstrict, proparallel FROM pg_proc WHERE pronamespace = 'public'::regnamespace
AND probin LIKE '%icu_locale%' ORDER BY 1, pronargs;
