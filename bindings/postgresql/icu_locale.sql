\echo Use "CREATE EXTENSION icu_locale" to load this file. \quit

-- The answers of these are those of one version of the data, whose name is in the name of the module: they are immutable.

CREATE FUNCTION is_locale(text) RETURNS boolean
AS 'MODULE_PATHNAME', 'pg_icu_locale_is' LANGUAGE C IMMUTABLE STRICT PARALLEL SAFE COST 10;
COMMENT ON FUNCTION is_locale(text) IS 'is the text a locale identifier of UTS #35?';

CREATE FUNCTION locale_canonical(text) RETURNS text
AS 'MODULE_PATHNAME', 'pg_icu_locale_canonical' LANGUAGE C IMMUTABLE STRICT PARALLEL SAFE COST 20;
COMMENT ON FUNCTION locale_canonical(text) IS 'the canonical form, with aliases replaced: iw is he';

CREATE FUNCTION locale_canonical(text, syntax text) RETURNS text
AS 'MODULE_PATHNAME', 'pg_icu_locale_canonical_of' LANGUAGE C IMMUTABLE STRICT PARALLEL SAFE COST 20;
COMMENT ON FUNCTION locale_canonical(text, text) IS 'the canonical form of a text in the syntax locales, bcp47 or posix';

CREATE FUNCTION locale_maximal(text) RETURNS text
AS 'MODULE_PATHNAME', 'pg_icu_locale_maximal' LANGUAGE C IMMUTABLE STRICT PARALLEL SAFE COST 30;
COMMENT ON FUNCTION locale_maximal(text) IS 'the canonical form with the likely script and region: zh-TW is zh-Hant-TW';

CREATE FUNCTION locale_minimal(text) RETURNS text
AS 'MODULE_PATHNAME', 'pg_icu_locale_minimal' LANGUAGE C IMMUTABLE STRICT PARALLEL SAFE COST 30;
COMMENT ON FUNCTION locale_minimal(text) IS 'the shortest form of the canonical form; an index wants locale_key';

CREATE FUNCTION locale_key(text) RETURNS text
AS 'MODULE_PATHNAME', 'pg_icu_locale_key' LANGUAGE C IMMUTABLE STRICT PARALLEL SAFE COST 30;
COMMENT ON FUNCTION locale_key(text) IS 'one text for each locale, whatever its spelling: iw-Hebr is he';

CREATE FUNCTION locale_identifier_key(text) RETURNS text
AS 'MODULE_PATHNAME', 'pg_icu_locale_identifier_key' LANGUAGE C IMMUTABLE STRICT PARALLEL SAFE COST 30;
COMMENT ON FUNCTION locale_identifier_key(text) IS 'the same without extensions: en-u-hc-h12 is en';

CREATE FUNCTION locale_direction(text) RETURNS text
AS 'MODULE_PATHNAME', 'pg_icu_locale_direction' LANGUAGE C IMMUTABLE STRICT PARALLEL SAFE COST 30;
COMMENT ON FUNCTION locale_direction(text) IS 'ltr, rtl, or null where the script has no direction';

CREATE FUNCTION locale_chain(text) RETURNS text[]
AS 'MODULE_PATHNAME', 'pg_icu_locale_chain' LANGUAGE C IMMUTABLE STRICT PARALLEL SAFE COST 40;
COMMENT ON FUNCTION locale_chain(text) IS 'the locales that a loader asks one after another, up to und';

CREATE FUNCTION locale_distance(desired text, supported text) RETURNS integer
AS 'MODULE_PATHNAME', 'pg_icu_locale_distance' LANGUAGE C IMMUTABLE STRICT PARALLEL SAFE COST 50;
COMMENT ON FUNCTION locale_distance(text, text) IS 'how far the second locale is from the first, if the first is wanted';

CREATE FUNCTION locale_serve(header text, available text[]) RETURNS text
AS 'MODULE_PATHNAME', 'pg_icu_locale_serve' LANGUAGE C IMMUTABLE STRICT PARALLEL SAFE COST 50;
COMMENT ON FUNCTION locale_serve(text, text[]) IS 'what is served for a header Accept-Language, as it is spelled there, or null';

CREATE FUNCTION locale_serve_place(header text, available text[]) RETURNS integer
AS 'MODULE_PATHNAME', 'pg_icu_locale_serve_place' LANGUAGE C IMMUTABLE STRICT PARALLEL SAFE COST 50;
COMMENT ON FUNCTION locale_serve_place(text, text[]) IS 'the subscript of what is served for a header Accept-Language, or null';

-- Names are read from files, and are for readers: they are stable, so that nobody stores them in an index by mistake.
CREATE FUNCTION locale_name(text, in_locale text) RETURNS text
AS 'MODULE_PATHNAME', 'pg_icu_locale_name' LANGUAGE C STABLE STRICT PARALLEL SAFE COST 50;
COMMENT ON FUNCTION locale_name(text, text) IS 'what the locale is called in the language of the second';

CREATE FUNCTION icu_locale_data_version() RETURNS text
AS 'MODULE_PATHNAME', 'pg_icu_locale_data_version' LANGUAGE C IMMUTABLE STRICT PARALLEL SAFE;
COMMENT ON FUNCTION icu_locale_data_version() IS 'the version of the data by which this database''s functions answer';

-- What is spelled as a locale. The grammar does not change with the data, so what was stored can be restored.
CREATE DOMAIN locale_id AS text COLLATE "C" CHECK (is_locale(VALUE));
COMMENT ON DOMAIN locale_id IS 'the text of a locale identifier, as it was spelled';

-- A locale as a key: stored as its key, and compared by bytes, so that no version of the data changes an index.
CREATE TYPE locale;
CREATE FUNCTION locale_in(cstring) RETURNS locale
AS 'MODULE_PATHNAME', 'pg_icu_locale_in' LANGUAGE C IMMUTABLE STRICT PARALLEL SAFE COST 30;
CREATE FUNCTION locale_out(locale) RETURNS cstring AS 'textout' LANGUAGE internal IMMUTABLE STRICT PARALLEL SAFE;
CREATE FUNCTION locale_recv(internal) RETURNS locale
AS 'MODULE_PATHNAME', 'pg_icu_locale_recv' LANGUAGE C STABLE STRICT PARALLEL SAFE COST 30;
CREATE FUNCTION locale_send(locale) RETURNS bytea AS 'textsend' LANGUAGE internal STABLE STRICT PARALLEL SAFE;
CREATE TYPE locale (INPUT = locale_in, OUTPUT = locale_out, RECEIVE = locale_recv, SEND = locale_send,
    INTERNALLENGTH = VARIABLE, STORAGE = extended, CATEGORY = 'S');
COMMENT ON TYPE locale IS 'a locale, stored as the one key of its spellings';

CREATE FUNCTION locale_eq(locale, locale) RETURNS boolean
AS 'byteaeq' LANGUAGE internal IMMUTABLE STRICT PARALLEL SAFE LEAKPROOF;
CREATE FUNCTION locale_ne(locale, locale) RETURNS boolean
AS 'byteane' LANGUAGE internal IMMUTABLE STRICT PARALLEL SAFE LEAKPROOF;
CREATE FUNCTION locale_lt(locale, locale) RETURNS boolean
AS 'bytealt' LANGUAGE internal IMMUTABLE STRICT PARALLEL SAFE LEAKPROOF;
CREATE FUNCTION locale_le(locale, locale) RETURNS boolean
AS 'byteale' LANGUAGE internal IMMUTABLE STRICT PARALLEL SAFE LEAKPROOF;
CREATE FUNCTION locale_gt(locale, locale) RETURNS boolean
AS 'byteagt' LANGUAGE internal IMMUTABLE STRICT PARALLEL SAFE LEAKPROOF;
CREATE FUNCTION locale_ge(locale, locale) RETURNS boolean
AS 'byteage' LANGUAGE internal IMMUTABLE STRICT PARALLEL SAFE LEAKPROOF;
CREATE FUNCTION locale_cmp(locale, locale) RETURNS integer
AS 'byteacmp' LANGUAGE internal IMMUTABLE STRICT PARALLEL SAFE LEAKPROOF;
CREATE FUNCTION locale_hash(locale) RETURNS integer
AS 'hashvarlena' LANGUAGE internal IMMUTABLE STRICT PARALLEL SAFE;
CREATE FUNCTION locale_hash_extended(locale, bigint) RETURNS bigint
AS 'hashvarlenaextended' LANGUAGE internal IMMUTABLE STRICT PARALLEL SAFE;
CREATE OPERATOR = (LEFTARG = locale, RIGHTARG = locale, FUNCTION = locale_eq, COMMUTATOR = =, NEGATOR = <>,
    RESTRICT = eqsel, JOIN = eqjoinsel, HASHES, MERGES);
CREATE OPERATOR <> (LEFTARG = locale, RIGHTARG = locale, FUNCTION = locale_ne, COMMUTATOR = <>, NEGATOR = =,
    RESTRICT = neqsel, JOIN = neqjoinsel);
CREATE OPERATOR < (LEFTARG = locale, RIGHTARG = locale, FUNCTION = locale_lt, COMMUTATOR = >, NEGATOR = >=,
    RESTRICT = scalarltsel, JOIN = scalarltjoinsel);
CREATE OPERATOR <= (LEFTARG = locale, RIGHTARG = locale, FUNCTION = locale_le, COMMUTATOR = >=, NEGATOR = >,
    RESTRICT = scalarlesel, JOIN = scalarlejoinsel);
CREATE OPERATOR > (LEFTARG = locale, RIGHTARG = locale, FUNCTION = locale_gt, COMMUTATOR = <, NEGATOR = <=,
    RESTRICT = scalargtsel, JOIN = scalargtjoinsel);
CREATE OPERATOR >= (LEFTARG = locale, RIGHTARG = locale, FUNCTION = locale_ge, COMMUTATOR = <=, NEGATOR = <,
    RESTRICT = scalargesel, JOIN = scalargejoinsel);
CREATE OPERATOR CLASS locale_ops DEFAULT FOR TYPE locale USING btree AS
    OPERATOR 1 <, OPERATOR 2 <=, OPERATOR 3 =, OPERATOR 4 >=, OPERATOR 5 >, FUNCTION 1 locale_cmp(locale, locale);
CREATE OPERATOR CLASS locale_hash_ops DEFAULT FOR TYPE locale USING hash AS
    OPERATOR 1 =, FUNCTION 1 locale_hash(locale), FUNCTION 2 locale_hash_extended(locale, bigint);

-- A locale is a text without a function; a text becomes a locale by its key, where it is assigned or asked for.
CREATE CAST (locale AS text) WITHOUT FUNCTION AS ASSIGNMENT;
CREATE FUNCTION locale(text) RETURNS locale
AS 'MODULE_PATHNAME', 'pg_icu_locale_key' LANGUAGE C IMMUTABLE STRICT PARALLEL SAFE COST 30;
CREATE CAST (text AS locale) WITH FUNCTION locale(text) AS ASSIGNMENT;

-- The same of a locale.
CREATE FUNCTION locale_maximal(locale) RETURNS text
AS 'MODULE_PATHNAME', 'pg_icu_locale_maximal' LANGUAGE C IMMUTABLE STRICT PARALLEL SAFE COST 30;
CREATE FUNCTION locale_direction(locale) RETURNS text
AS 'MODULE_PATHNAME', 'pg_icu_locale_direction' LANGUAGE C IMMUTABLE STRICT PARALLEL SAFE COST 30;
CREATE FUNCTION locale_chain(locale) RETURNS text[]
AS 'MODULE_PATHNAME', 'pg_icu_locale_chain' LANGUAGE C IMMUTABLE STRICT PARALLEL SAFE COST 40;
CREATE FUNCTION locale_distance(desired locale, supported locale) RETURNS integer
AS 'MODULE_PATHNAME', 'pg_icu_locale_distance' LANGUAGE C IMMUTABLE STRICT PARALLEL SAFE COST 50;
CREATE FUNCTION locale_name(locale, in_locale text) RETURNS text
AS 'MODULE_PATHNAME', 'pg_icu_locale_name' LANGUAGE C STABLE STRICT PARALLEL SAFE COST 50;

-- What of this database rests on the answers, and is made again when the data changes. The update script reads it with the
-- rights of a superuser, so each function and operator has exactly the types of one in pg_catalog: another of the same
-- name, in the schema of the extension, is never nearer.
CREATE VIEW locale_dependents AS
WITH answering AS (
    SELECT p.oid FROM pg_catalog.pg_proc p
    JOIN pg_catalog.pg_depend e ON e.classid = 'pg_catalog.pg_proc'::regclass::oid AND e.objid = p.oid AND e.deptype = 'e'
    JOIN pg_catalog.pg_extension x ON e.refclassid = 'pg_catalog.pg_extension'::regclass::oid AND e.refobjid = x.oid
        AND x.extname = 'icu_locale'
    WHERE pg_catalog.starts_with(p.prosrc, 'pg_icu_locale_')
        AND p.prosrc <> 'pg_icu_locale_is' AND p.prosrc <> 'pg_icu_locale_data_version'
), resting AS (
    SELECT DISTINCT d.classid, d.objid, d.objsubid FROM pg_catalog.pg_depend d
    JOIN answering f ON d.refclassid = 'pg_catalog.pg_proc'::regclass::oid AND d.refobjid = f.oid AND d.deptype = 'n'
)
SELECT CASE c.relkind WHEN 'i' THEN 'index' WHEN 'I' THEN 'partitioned index' ELSE 'partition key' END AS kind,
    pg_catalog.pg_describe_object(d.classid, d.objid, d.objsubid) AS object,
    CASE c.relkind WHEN 'i' THEN 'REINDEX INDEX ' || c.oid::regclass::text END AS command
FROM resting d JOIN pg_catalog.pg_class c ON d.classid = 'pg_catalog.pg_class'::regclass::oid AND c.oid = d.objid
UNION ALL
SELECT 'generated column', pg_catalog.pg_describe_object(d.classid, d.objid, d.objsubid),
    (SELECT 'UPDATE ' || a.adrelid::regclass::text || ' SET ' || min(quote_ident(b.attname::text)) || ' = '
            || min(quote_ident(b.attname::text))
        FROM pg_catalog.pg_depend f
        JOIN pg_catalog.pg_attribute b ON b.attrelid = f.refobjid AND b.attnum::integer = f.refobjsubid
        WHERE f.classid = d.classid AND f.objid = d.objid AND f.refclassid = 'pg_catalog.pg_class'::regclass::oid
            AND f.refobjsubid <> a.adnum::integer)
FROM resting d JOIN pg_catalog.pg_attrdef a ON d.classid = 'pg_catalog.pg_attrdef'::regclass::oid AND a.oid = d.objid
JOIN pg_catalog.pg_attribute t ON t.attrelid = a.adrelid AND t.attnum = a.adnum AND t.attgenerated = 's'
UNION ALL
SELECT 'constraint', pg_catalog.pg_describe_object(d.classid, d.objid, d.objsubid), NULL
FROM resting d WHERE d.classid = 'pg_catalog.pg_constraint'::regclass::oid
UNION ALL
SELECT DISTINCT 'materialized view', pg_catalog.pg_describe_object('pg_catalog.pg_class'::regclass::oid, v.oid, 0),
    'REFRESH MATERIALIZED VIEW ' || v.oid::regclass::text
FROM resting d JOIN pg_catalog.pg_rewrite r ON d.classid = 'pg_catalog.pg_rewrite'::regclass::oid AND r.oid = d.objid
JOIN pg_catalog.pg_class v ON v.oid = r.ev_class AND v.relkind = 'm'
UNION ALL
SELECT 'column', pg_catalog.pg_describe_object('pg_catalog.pg_class'::regclass::oid, c.oid, t.attnum::integer),
    'UPDATE ' || c.oid::regclass::text || ' SET ' || quote_ident(t.attname::text) || ' = ' || quote_ident(t.attname::text)
        || '::text::' || y.oid::regtype::text || ' WHERE ' || quote_ident(t.attname::text) || '::text <> '
        || quote_ident(t.attname::text) || '::text::' || y.oid::regtype::text || '::text'
FROM pg_catalog.pg_attribute t JOIN pg_catalog.pg_class c ON c.oid = t.attrelid
JOIN pg_catalog.pg_type y ON y.oid = t.atttypid AND y.typname = 'locale'
JOIN pg_catalog.pg_depend e ON e.classid = 'pg_catalog.pg_type'::regclass::oid AND e.objid = y.oid AND e.deptype = 'e'
JOIN pg_catalog.pg_extension x ON e.refclassid = 'pg_catalog.pg_extension'::regclass::oid AND e.refobjid = x.oid
    AND x.extname = 'icu_locale'
WHERE (c.relkind = 'r' OR c.relkind = 'p') AND NOT t.attisdropped AND NOT c.relispartition;
COMMENT ON VIEW locale_dependents IS 'what is stored by the answers of icu_locale, and how it is made again';
GRANT SELECT ON locale_dependents TO PUBLIC;
