"""The extension by Python's sqlite3, in its folder: answers, refusals, threads, and what a program without it can do."""
import os
import sqlite3
import tempfile
import threading

CHANGES = ["INSERT INTO indexed VALUES ('de')", "UPDATE indexed SET tag = 'fr'", "DELETE FROM indexed WHERE tag = 'zh-Hant-TW'", "INSERT INTO generated(tag) VALUES ('de')",
           "INSERT INTO checked VALUES ('de')", "PRAGMA integrity_check", "VACUUM"]
FILE = """
    CREATE TABLE indexed(tag TEXT); CREATE UNIQUE INDEX one ON indexed(locale_key(tag)); INSERT INTO indexed VALUES ('zh-Hant-TW');
    CREATE TABLE generated(tag TEXT, key TEXT AS (locale_key(tag)) STORED UNIQUE); INSERT INTO generated(tag) VALUES ('zh-Hant-TW');
    CREATE TABLE checked(tag TEXT CHECK(is_locale(tag))); INSERT INTO checked VALUES ('en');
"""
PLAIN = """
    CREATE TABLE plain(key TEXT PRIMARY KEY, tag TEXT) WITHOUT ROWID;
    INSERT INTO plain VALUES (locale_key('zh-Hant-TW'), 'zh-Hant-TW');
"""


def connect(path=":memory:", script=""):
    db = sqlite3.connect(path)
    db.enable_load_extension(True)
    db.load_extension("./mod_icu_locale")
    db.enable_load_extension(False)
    db.executescript(script)
    return db


def one(db, sql, *values):
    return db.execute(sql, values).fetchone()[0]


def refused(db, sql, *values):
    """The message of a refusal."""
    try:
        db.execute(sql, values).fetchall()
    except (sqlite3.OperationalError, sqlite3.DataError) as error:
        return str(error)
    finally:
        db.rollback()
    raise AssertionError(f"{sql} {values}: it was not refused")


def answers(db):
    assert one(db, "SELECT locale_key(?)", "ZH_hant_TW") == "zh-TW"
    assert one(db, "SELECT locale_name('de-AT', 'de')") == "Österreichisches Deutsch"
    assert one(db, "SELECT locale_key(NULL)") is None
    for bad in ("english", "", "en\0", "dé", "\U0001f600", b"\xff\xfe", "a" * 60000):
        said = refused(db, "SELECT locale_key(?)", bad)
        assert "invalid locale identifier" in said and "InvalidLanguage" in said, said
    assert "too big" in refused(db, "SELECT locale_key(?)", "en-x-" + "a" * 70000)
    assert len(one(db, "SELECT locale_canonical(?)", "en-x" + "-abc" * 16000)) == 64004
    numbers = "WITH RECURSIVE n(i) AS (SELECT 1 UNION ALL SELECT i + 1 FROM n WHERE i < 200)"
    lists = f"{numbers} SELECT locale_serve('de-CH', 'en fr-x-a' || i || ' de'), locale_serve('de-CH', 'en de_AT') FROM n"
    assert set(db.execute(lists)) == {("de", "de_AT")}
    readers = ["en", "de", "fr", "ja", "ru", "es", "it", "pt", "nl", "sv", "da", "nb", "fi", "pl", "cs", "hu", "tr", "el"]
    for _ in range(2):  # more than are kept
        assert len({one(db, "SELECT locale_name('is', ?)", reader) for reader in readers}) > 10


def threads():
    said = []

    def work():
        db = connect()
        for _ in range(1000):
            said.append(one(db, "SELECT locale_key('iw-Hebr') || locale_serve('de', 'en de') || locale_name('fr', 'en')"))
        db.close()

    running = [threading.Thread(target=work) for _ in range(8)]
    for thread in running:
        thread.start()
    for thread in running:
        thread.join()
    assert len(said) == 8000 and set(said) == {"hedeFrench"}, set(said)


def resident():
    with open("/proc/self/status", encoding="ascii") as lines:
        return next(int(line.split()[1]) for line in lines if line.startswith("RssAnon"))


def connections():
    """Connections leave nothing behind."""
    for _ in range(200):
        connect().close()
    before = resident()
    for _ in range(2000):
        connect().close()
    assert resident() < before + 2000, (before, resident())


def files():
    """A program without the extension reads a file, and changes nothing that asks for it; a plain column travels."""
    with tempfile.TemporaryDirectory() as folder:
        path = os.path.join(folder, "a.db")
        connect(path, FILE).close()
        bare = sqlite3.connect(path)
        for table in ("indexed", "generated", "checked"):
            assert len(bare.execute(f"SELECT * FROM {table}").fetchall()) == 1
        for sql in CHANGES:
            said = refused(bare, sql)
            assert "unknown function" in said or "no such function" in said or "unsafe use" in said, (sql, said)
        bare.close()
        path = os.path.join(folder, "b.db")
        connect(path, PLAIN).close()
        bare = sqlite3.connect(path)
        assert bare.execute("SELECT key FROM plain WHERE key = 'zh-TW'").fetchall() == [("zh-TW",)]
        bare.execute("INSERT INTO plain VALUES ('de', 'de')")
        bare.commit()
        bare.execute("VACUUM")
        assert bare.execute("PRAGMA integrity_check").fetchall() == [("ok",)]
        bare.close()


answers(connect())
threads()
connections()
files()
