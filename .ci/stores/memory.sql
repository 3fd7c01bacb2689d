SET client_min_messages = warning;
CREATE FUNCTION fail_after(bigint) RETURNS void AS 'MODULE', 'fail_after' LANGUAGE c STRICT;
CREATE FUNCTION refused_is(text) RETURNS boolean AS 'MODULE', 'pg_icu_locale_is' LANGUAGE c STRICT;
CREATE FUNCTION refused_key(text) RETURNS text AS 'MODULE', 'pg_icu_locale_key' LANGUAGE c STRICT;
CREATE FUNCTION refused_name(text, text) RETURNS text AS 'MODULE', 'pg_icu_locale_name' LANGUAGE c STRICT;
CREATE FUNCTION refused_serve(text, text[]) RETURNS text AS 'MODULE', 'pg_icu_locale_serve' LANGUAGE c STRICT;
-- asks until nothing is refused: how many requests were, in which states the calls failed, and the answer
CREATE FUNCTION refuse_each(query text, OUT failures bigint, OUT states text, OUT answer text) LANGUAGE plpgsql AS $$
DECLARE state text; found text[] := '{}';
BEGIN
    failures := 0;
    LOOP
        PERFORM fail_after(failures);
        BEGIN
            EXECUTE query INTO answer;
            EXIT;
        EXCEPTION WHEN OTHERS THEN
            GET STACKED DIAGNOSTICS state = RETURNED_SQLSTATE;
            IF NOT state = ANY (found) THEN found := found || state; END IF;
            failures := failures + 1;
        END;
        EXIT WHEN failures > 100000;
    END LOOP;
    PERFORM fail_after(-1);
    states := array_to_string(found, ' ');
END$$;
SELECT 'tables', * FROM refuse_each($$SELECT refused_is('qaa')$$);
SELECT 'first key', * FROM refuse_each($$SELECT refused_key('qab-aaaaa')$$);
SELECT 'key', * FROM refuse_each($$SELECT refused_key('qaa-u-ca-buddhist-x-a')$$);
SELECT 'names', * FROM refuse_each($$SELECT refused_name('qaa-XB', 'qaa')$$);
SELECT 'list', * FROM refuse_each($$SELECT refused_serve('qab, qaa', '{qaa,qaa_XA}')$$);
