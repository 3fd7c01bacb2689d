-- each kind of what is stored by the answers, and what is not stored
CREATE SCHEMA other;
CREATE TABLE other."a ""table" ("a ""tag" text, key text GENERATED ALWAYS AS (locale_key("a ""tag")) STORED,
    kept locale, fresh text DEFAULT locale_key('iw'), CHECK (locale_direction("a ""tag") = 'ltr'), CHECK (is_locale(key)));
CREATE INDEX an_index ON other."a ""table" (locale_canonical("a ""tag"));
CREATE TABLE parts (tag text) PARTITION BY LIST (locale_direction(tag));
CREATE TABLE parts_ltr PARTITION OF parts FOR VALUES IN ('ltr');
CREATE INDEX parts_index ON parts (locale_chain(tag));
CREATE VIEW passing AS SELECT locale_key(tag) FROM parts;
CREATE MATERIALIZED VIEW kept AS SELECT locale_key("a ""tag"), locale_maximal("a ""tag") FROM other."a ""table";
SELECT kind, object, command FROM locale_dependents ORDER BY 2;
-- what anybody makes in the schema of the extension is not called
CREATE FUNCTION called() RETURNS boolean LANGUAGE plpgsql AS $$BEGIN RAISE WARNING 'called'; RETURN true; END$$;
CREATE FUNCTION called(oid, regclass) RETURNS boolean LANGUAGE sql AS 'SELECT called()';
CREATE FUNCTION called(text, text) RETURNS boolean LANGUAGE sql AS 'SELECT called()';
CREATE FUNCTION called(name, text) RETURNS boolean LANGUAGE sql AS 'SELECT called()';
CREATE FUNCTION quote_ident(name) RETURNS text LANGUAGE sql AS 'SELECT called()::text';
CREATE FUNCTION quote_ident(text) RETURNS text LANGUAGE sql AS 'SELECT called()::text';
CREATE OPERATOR = (LEFTARG = oid, RIGHTARG = regclass, FUNCTION = called);
CREATE OPERATOR = (LEFTARG = text, RIGHTARG = text, FUNCTION = called);
CREATE OPERATOR || (LEFTARG = text, RIGHTARG = text, FUNCTION = called);
CREATE OPERATOR = (LEFTARG = name, RIGHTARG = text, FUNCTION = called);
SELECT 'pg_class'::regclass::oid = 'pg_class'::regclass AS is_called;
DROP EXTENSION icu_locale CASCADE;
CREATE EXTENSION icu_locale;
CREATE INDEX an_index ON other."a ""table" (locale_canonical("a ""tag"));
SELECT kind, object, command FROM locale_dependents ORDER BY 2;
ALTER EXTENSION icu_locale UPDATE TO 'cldr41test';
DROP OPERATOR public.= (oid, regclass), public.= (text, text), public.|| (text, text), public.= (name, text);
DROP FUNCTION called(oid, regclass), called(text, text), called(name, text), public.quote_ident(name), public.quote_ident(text), called();
DROP EXTENSION icu_locale CASCADE;
CREATE EXTENSION icu_locale;
DROP SCHEMA other CASCADE;
-- in a schema that is not searched
DROP EXTENSION icu_locale;
CREATE SCHEMA apart;
CREATE EXTENSION icu_locale SCHEMA apart;
CREATE TABLE far (tag text, typed apart.locale);
INSERT INTO far VALUES ('nds-DE', 'nds-DE');
CREATE INDEX far_index ON far (apart.locale_key(tag));
ALTER EXTENSION icu_locale UPDATE TO 'cldr41test';
SELECT command FROM apart.locale_dependents WHERE kind = 'column' \gexec
SELECT typed FROM far WHERE apart.locale_key(tag) = 'de';
DROP SCHEMA apart CASCADE;
DROP TABLE far;
CREATE EXTENSION icu_locale;
