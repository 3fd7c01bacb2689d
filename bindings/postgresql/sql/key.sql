-- one row for each locale, whatever its spelling
CREATE TABLE texts (tag locale_id NOT NULL, text text);
CREATE UNIQUE INDEX texts_one ON texts ((locale_key(tag) COLLATE "C"));
INSERT INTO texts VALUES ('zh-Hant-TW', 'a'), ('he', 'b'), ('en-u-hc-h12', 'c');
INSERT INTO texts VALUES ('zh_tw', 'd');
INSERT INTO texts VALUES ('iw-Hebr', 'd');
INSERT INTO texts VALUES ('en-Latn-US-u-hc-h12', 'd');
INSERT INTO texts VALUES ('en', 'd');
INSERT INTO texts VALUES ('english', 'd');
INSERT INTO texts VALUES ('iw', 'e') ON CONFLICT ((locale_key(tag) COLLATE "C")) DO UPDATE SET text = excluded.text RETURNING *;
-- a generated column
CREATE TABLE generated (tag text, key text COLLATE "C" GENERATED ALWAYS AS (locale_key(tag)) STORED PRIMARY KEY);
INSERT INTO generated (tag) VALUES ('zh-Hant-TW'), ('EN_us');
INSERT INTO generated (tag) VALUES ('en-Latn');
SELECT * FROM generated ORDER BY key;
-- names are not immutable
CREATE INDEX ON texts (locale_name(tag, 'en'));
DROP TABLE texts, generated;
