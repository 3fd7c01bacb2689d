"""The command `icu-locale` over CLDR's data inside the package: as a program, and by a call of it."""
import gzip
import io
import json
import os
import pty
import select
import shlex
import signal
import subprocess
import sys
import tempfile
import unittest
from pathlib import Path
from unittest import mock

from icu_locale import _data
from icu_locale._calls import version
from icu_locale._command import lines, main
from icu_locale._command.words import COMMANDS
from icu_locale._menu import key_of

HAS_DATA = any((folder / "base-and-supplement.gz").is_file() for folder in _data.FOLDERS)
PROGRAM = [sys.executable, "-W", "error", "-m", "icu_locale"]
# The words of a command, and what it prints, by CLDR and UTS #35.
ANSWERS = [
    ("canonicalize iw sh zh_hant_tw", "he\nsr-Latn\nzh-Hant-TW\n"),
    ("canonicalize --syntax bcp47 i-klingon zh-yue-Hant", "tlh\nyue-Hant\n"),
    ("canonicalize --syntax posix sr_RS.UTF-8@latin", "sr-Latn-RS\n"),
    ("maximize zh-TW und-SA", "zh-Hant-TW\nar-Arab-SA\n"),
    ("maximize zh-TW --json de", '{"input": "zh-TW", "answer": "zh-Hant-TW"}\n{"input": "de", "answer": "de-Latn-DE"}\n'),
    ("maximize --tsv zh-TW", "zh-TW\tzh-Hant-TW\tok\n"),
    ("minimize zh-Hant-TW", "zh-TW\n"),
    ("minimize --favor-script zh-Hant-TW", "zh-Hant\n"),
    ("parts de-AT zh-Hant-TW-u-ca-roc-nu-hanidec",
     "language: de\nregion: AT\n\nlanguage: zh\nscript: Hant\nregion: TW\nkeywords: ca=roc nu=hanidec\n"),
    ("parts --tsv de-AT", "de-AT\tlanguage: de, region: AT\tok\n"),
    ("name --in en de-AT it-US", "Austrian German\nItalian (United States)\n"),
    ("name de-AT --in DE", "Österreichisches Deutsch\n"),
    ("name --in en-XX de-AT", "Austrian German\n"),
    ("name --kind region --in de US qx", "Vereinigte Staaten\nQX\n"),
    ("name --kind script --in de-CH latn", "Lateinisch\n"),
    ("name --kind language --in en de --json", '{"input": "de", "answer": "German"}\n'),
    ("name --kind variant --in en FONIPA --tsv", "FONIPA\tIPA Phonetics\tok\n"),
    ("validate de-DE de_DD en-u-ca-islamicc-hc-h99",
     "valid\nregion DD deprecated\nkeyword ca-islamicc deprecated, keyword hc-h99 unlisted\n"),
    ("validate --syntax posix de_DD.UTF-8 C", "region DD deprecated\nvalid\n"),
    ("validate --tsv de-DD de", "de-DD\tregion DD deprecated\tok\nde\tvalid\tok\n"),
    ("validate --json de-DD de", '{"input": "de-DD", "answer": [{"kind": "region", "text": "DD", "status": "deprecated", '
     '"start": 3, "end": 5}]}\n{"input": "de", "answer": []}\n'),
    ("direction ar de und", "rtl\nltr\nnone\n"),
    ("direction --json und", '{"input": "und", "answer": null}\n'),
    ("chain en-AU", "en-AU en-001 en und\n"),
    ("chain --json zh-TW", '{"input": "zh-TW", "answer": ["zh-TW", "zh-Hant-TW", "zh-Hant", "und"]}\n'),
    ("serve --available en,de,fr 'de-CH, fr;q=0.5' gsw '*'", "de\nde\nen\n"),
    ("serve --available 'en, zh_Hant, he' 'fr-CH, iw;q=0.9, *;q=0.1' ja", "he\nnone\n"),
    ("serve --available en --default en ja", "en\n"),
    ("serve --available en,de --threshold 8 gsw", "none\n"),
    ("serve --available en,de --threshold 9 gsw", "de\n"),
    ("serve --available fr,de-CH,it 'fr-CH, de-CH, it'", "fr\n"),  # both rows are a test of ICU's
    ("serve --available fr,de-CH,it --demotion 0 'fr-CH, de-CH, it'", "de-CH\n"),
    ("serve --available en --favor-script fr ja", "en\nnone\n"),
    ("serve --available en,de --or-first ja '*;q=0'", "en\nen\n"),
    ("resolved --available de,en-GB,zh-Hant de-CH 'fr en-AU-u-ca-buddhist' gsw-CH zh-TW ja",
     "de-CH\nen-AU-u-ca-buddhist\nde-CH\nzh-Hant-TW\nnone\n"),
    ("resolved --available zh_Hant,de --or-first ja --json", '{"input": "ja", "answer": "zh-Hant"}\n'),
    ("menu --in en ja fr zh-Hant", "fr\tfrançais\tFrench\nja\t日本語\tJapanese\nzh-Hant\t繁體中文\tTraditional Chinese\n"),
    ("menu --in en de-XX --json", '{"input": "de-XX", "answer": {"own": "Deutsch (XX)", "name": "German (XX)"}}\n'),
    ("menu --in en de --tsv", "de\tDeutsch\tGerman\tok\n"),
]
REFUSED = [
    ("maximize zh-TW en-Latm1-US de", "zh-Hant-TW\n\nde-Latn-DE\n", "icu-locale: en-Latm1-US: InvalidSubtag: US cannot be there\n"),
    ("maximize en-US-Latn de-1996-1996 e", "\n\n\n", "icu-locale: en-US-Latn: InvalidSubtag: Latn cannot be there\n"
     "icu-locale: de-1996-1996: InvalidSubtag: 1996 cannot be there\nicu-locale: e: InvalidLanguage\n"),
    ("maximize de -- -x", "de-Latn-DE\n\n", "icu-locale: -x: InvalidLanguage\n"),
    ("parts en- de", "\nlanguage: de\n", "icu-locale: en-: InvalidSubtag\n"),
    ("name --in en en-", "\n", "icu-locale: en-: InvalidSubtag\n"),
    ("name --kind region --in en USA US", "\nUnited States\n", "icu-locale: USA: InvalidSubtag\n"),
    ("validate en-Latm1-US de-DD --json", '{"input": "en-Latm1-US", "refusal": "InvalidSubtag"}\n{"input": "de-DD", "answer": '
     '[{"kind": "region", "text": "DD", "status": "deprecated", "start": 3, "end": 5}]}\n',
     "icu-locale: en-Latm1-US: InvalidSubtag: US cannot be there\n"),
    ("menu --in en en- de", "de\tDeutsch\tGerman\n", "icu-locale: en-: InvalidSubtag\n"),
    ("maximize --json ''", '{"input": "", "refusal": "InvalidLanguage"}\n', "icu-locale: '': InvalidLanguage\n"),
    ("resolved --available de 'en en-' de-AT", "\nde-AT\n", "icu-locale: en en-: InvalidSubtag\n"),
    ("maximize --tsv 'e\tn'", "e\\tn\t\tInvalidLanguage\n", "icu-locale: e\\tn: InvalidLanguage\n"),
]
# Wrong words, and what is told of those that there are.
WRONG = [
    ("", "maximize"), ("maximise zh", "maximize"), ("--version more", "maximize"), ("--completion zsh", "bash"),
    ("maximize --yaml", "--json"), ("maximize --js", "--json"), ("maximize --syntax c", "posix"), ("name de", "--in"),
    ("menu de", "--in"), ("serve en", "--available"), ("serve --available 'en,e' en", "place 1"),
    ("maximize --json --tsv", "--tsv"), ("maximize --csv zh", "one word too many"), ("maximize --column 2", "--csv"),
    ("maximize --csv --column 0", "'0'"), ("version x", "--json"), ("version -- x", "--json"), ("maximize -x", "--json"),
    ("regions", "--in"), ("regions --in xx", "no names"), ("regions --in en US", "--json"), ("regions --in en -- US", "--json"),
    ("name --in en --kind regions US", "variant"), ("name --in en --kind region --syntax posix US", "--kind region"),
    ("validate --in en de", "--syntax"), ("menu --in en --csv", "--tsv"), ("name --in xx de", "no names"), ("name --in e de", "no names"),
    ("serve --available '' en", "place 0"), ("'a\nb'", "a\\nb"), ("resolved en", "--available"),
    ("serve --available en --threshold -1 en", "0 to 65535"), ("resolved --available en --demotion 65536 en", "0 to 65535"),
    ("resolved --available en --threshold few en", "0 to 65535"), ("resolved --available en --default en en", "--or-first"),
]


def called(words, read=b""):
    """The status of a call, and what it wrote and told."""
    streams = [io.TextIOWrapper(io.BytesIO(each), encoding="utf-8") for each in (read, b"", b"")]
    with mock.patch.multiple(sys, stdin=streams[0], stdout=streams[1], stderr=streams[2]), \
            mock.patch.dict(os.environ, LC_ALL="C"):
        status = main(shlex.split(words))
    for stream in streams[1:]:
        stream.flush()
    return (status, *(stream.buffer.getvalue().decode("utf-8", "surrogateescape") for stream in streams[1:]))


def ran(words, read=b"", **kept):
    """The same of a program."""
    ended = subprocess.run([*PROGRAM, *shlex.split(words)], input=read, capture_output=True, check=False, **kept)
    return ended.returncode, ended.stdout.decode(), ended.stderr.decode()


@unittest.skipUnless(HAS_DATA, "the package has no data of CLDR inside")
class Answers(unittest.TestCase):
    def test_answers(self):
        for words, wanted in ANSWERS:
            self.assertEqual(called(words), (0, wanted, ""), words)

    def test_regions(self):
        status, written, told = called("regions --in de")
        rows = [line.split("\t") for line in written.splitlines()]
        self.assertEqual((status, told, len(rows)), (0, "", written.count("\n")))
        self.assertLess({("AT", "Österreich"), ("US", "Vereinigte Staaten"), ("419", "Lateinamerika")}, set(map(tuple, rows)))
        key = key_of("de")
        self.assertEqual([name for _, name in rows], sorted((name for _, name in rows), key=lambda name: (key(name), name)))
        self.assertEqual(called("regions --in de-XX --tsv")[1], "".join(f"{code}\t{name}\tok\n" for code, name in rows))
        answers = [json.loads(line) for line in called("regions --in de --json")[1].splitlines()]
        self.assertEqual(answers, [{"input": code, "answer": name} for code, name in rows])

    def test_refusals(self):
        for words, wanted, told in REFUSED:
            self.assertEqual(called(words), (1, wanted, told), words)

    def test_program(self):
        self.assertEqual(ran("maximize zh-TW"), (0, "zh-Hant-TW\n", ""))
        self.assertEqual(ran("name --in de", "de-AT\r\nen-\r\nfr".encode()),
                         (1, "Österreichisches Deutsch\n\nFranzösisch\n", "icu-locale: line 2: en-: InvalidSubtag\n"))
        self.assertEqual(ran("maximise")[:2], (2, ""))

    def test_lines(self):
        self.assertEqual(called("maximize", "\ufeffzh-TW\n\nde".encode()),
                         (1, "zh-Hant-TW\n\nde-Latn-DE\n", "icu-locale: line 2: '': InvalidLanguage\n"))
        self.assertEqual(called("serve --available en,de", b"de-AT\nfr, en;q=0.1\n"), (0, "de\nen\n", ""))
        self.assertEqual(called("menu --in en", b"ja\nde\n"), (0, "de\tDeutsch\tGerman\nja\t日本語\tJapanese\n", ""))
        self.assertEqual(called("maximize"), (0, "", ""))
        status, written, told = called("maximize", b"e" * 1_000_000)
        self.assertEqual((status, written), (1, "\n"))
        self.assertLess(len(told), 200)

    def test_broken_utf8(self):
        read = b"zh-TW\n\xff\xfe\n\x1b[31m\n"
        told = "icu-locale: line 2: \\xff\\xfe: InvalidLanguage\nicu-locale: line 3: \\x1b[31m: InvalidLanguage\n"
        self.assertEqual(ran("maximize", read), (1, "zh-Hant-TW\n\n\n", told))
        self.assertEqual(called("maximize --tsv", read)[1],
                         "zh-TW\tzh-Hant-TW\tok\n\\xff\\xfe\t\tInvalidLanguage\n\\x1b[31m\t\tInvalidLanguage\n")
        answers = [json.loads(line) for line in called("maximize --json", read)[1].splitlines()]
        self.assertEqual(answers[1], {"input": "\udcff\udcfe", "refusal": "InvalidLanguage"})
        kept = subprocess.run([*PROGRAM, "maximize", "--csv"], input=b"zh-TW,\xff\n", capture_output=True, check=True).stdout
        self.assertEqual(kept, b"zh-Hant-TW,\xff\n")

    def test_many(self):
        status, written, told = called("minimize", b"zh-Hant-TW\n" * 20_000)
        self.assertEqual((status, written, told), (0, "zh-TW\n" * 20_000, ""))


@unittest.skipUnless(HAS_DATA, "the package has no data of CLDR inside")
class Tables(unittest.TestCase):
    def test_csv(self):
        rows = 'id,"locale, asked",note\r\n1,zh-TW,"a ""b"""\r\n2,"iw","two\r\nlines"\r\n\r\n3,en-,x\r\n4\r\n'
        wanted = 'id,"locale, asked",note\r\n1,zh-Hant-TW,"a ""b"""\r\n2,iw-Hebr-IL,"two\r\nlines"\r\n\r\n3,,x\r\n4\r\n'
        told = "icu-locale: line 6: en-: InvalidSubtag\nicu-locale: line 7: there is no column 2\n"
        self.assertEqual(called("maximize --csv --column 2 --header", rows.encode()), (1, wanted, told))
        self.assertEqual(called("chain --csv", b'"en-AU",x\n'), (0, "en-AU en-001 en und,x\n", ""))
        self.assertEqual(called("validate --csv", b"xx-DD,x\nde,y\n"), (0, '"language xx unlisted, region DD deprecated",x\nvalid,y\n', ""))
        self.assertEqual(called("name --kind region --in de --csv --column 2", b"1,US\n"), (0, "1,Vereinigte Staaten\n", ""))
        self.assertEqual(called("parts --csv", b"de-AT\n"), (0, '"language: de, region: AT"\n', ""))
        self.assertEqual(called("serve --available en,de --csv", b'"fr, de;q=0.5",x\nja,y'), (0, "de,x\nnone,y\n", ""))
        self.assertEqual(called("maximize --csv"), (0, "", ""))
        long = f"de,{'x' * 200_000}\n"
        self.assertEqual(called("direction --csv", long.encode())[:2], (0, long.replace("de", "ltr", 1)))

    def test_wrong_csv(self):
        for wrong in (b"de\rx,y\n", b'"de"x,y\n', b'"de\n'):
            status, written, told = called("maximize --csv", b"zh-TW,x\n" + wrong)
            self.assertEqual((status, written, told.count("\n")), (2, "zh-Hant-TW,x\n", 1))
            self.assertIn("line 2: this is no CSV", told)

    def test_tsv(self):
        self.assertEqual(called("maximize --tsv-input --column 2 --header", '\ufeffid\tto\n"1\tzh-TW\n\n2"\tde\t\n'.encode()),
                         (0, 'id\tto\n"1\tzh-Hant-TW\n\n2"\tde-Latn-DE\t\n', ""))


@unittest.skipUnless(HAS_DATA, "the package has no data of CLDR inside")
class Words(unittest.TestCase):
    def test_wrong(self):
        for words, there_is in WRONG:
            status, written, told = called(words)
            self.assertEqual((status, written, told.count("\n")), (2, "", 1), words)
            self.assertTrue(told.startswith("icu-locale: "), words)
            self.assertIn(there_is, told, words)

    def test_help(self):
        for words in ("--help", "-h"):
            status, written, told = called(words)
            self.assertEqual((status, told), (0, ""))
            for name in COMMANDS:
                self.assertIn(name, written)
        for name, command in COMMANDS.items():
            status, written, told = called(f"{name} --help")
            self.assertEqual((status, told), (0, ""))
            self.assertIn(f"example: icu-locale {name} {command.words}".rstrip(), written)
            if command.prints:
                self.assertEqual(called(f"{name} {command.words}"), (0, command.prints + "\n", ""))

    def test_version(self):
        self.assertEqual(called("--version"), (0, f"icu-locale {version()}\n", ""))
        self.assertEqual(called("version"), (0, f"icu-locale: {version()}\nCLDR: {_data.cldr_version()}\ndata: {_data.data_folder()}\n", ""))
        self.assertEqual(json.loads(called("version --json")[1])["icu-locale"], version())

    def test_completion(self):
        script = called("--completion bash")[1]
        for typed, wanted in [("icu-locale maxi", "maximize"), ("icu-locale serve --av", "--available"),
                              ("icu-locale name --syntax p", "posix"), ("icu-locale val", "validate"),
                              ("icu-locale name --k", "--kind"), ("icu-locale name --kind re", "region"), ("icu-locale menu --cs", ""),
                              ("icu-locale resolved --fa", "--favor-script"), ("icu-locale serve --d", "--demotion --default"),
                              ("icu-locale --ver", "--version")]:
            words = typed.split()
            asked = f'{script}\nCOMP_WORDS=({typed}) COMP_CWORD={len(words) - 1}; _icu_locale; echo "${{COMPREPLY[*]}}"'
            told = subprocess.run(["bash", "-c", asked], capture_output=True, text=True, check=True).stdout
            self.assertEqual(told, f"{wanted}\n", typed)


@unittest.skipUnless(HAS_DATA, "the package has no data of CLDR inside")
class Ends(unittest.TestCase):
    def test_closed_pipe(self):
        reader, writer = os.pipe()
        os.close(reader)
        for words, read in (("maximize zh-TW", b""), ("maximize", b"zh-TW\n" * 50_000), ("--help", b"")):
            ended = subprocess.run([*PROGRAM, *words.split()], input=read, stdout=writer, stderr=subprocess.PIPE, check=False)
            self.assertEqual((ended.returncode, ended.stderr), (141, b""))
        os.close(writer)

    @unittest.skipUnless(os.path.exists("/dev/full"), "this system has no full device")
    def test_full_device(self):
        with open("/dev/full", "wb") as full:
            ended = subprocess.run([*PROGRAM, "maximize", "zh-TW"], stdout=full, stderr=subprocess.PIPE, check=False)
        self.assertEqual((ended.returncode, ended.stderr.count(b"\n")), (2, 1))

    def test_closed_streams(self):
        for words, closed in (("maximize", "<&-"), ("maximize zh", ">&-")):
            shell = ["sh", "-c", f'"$@" {closed}', "sh"]
            ended = subprocess.run([*shell, *PROGRAM, *words.split()], capture_output=True, check=False)
            self.assertEqual((ended.returncode, ended.stdout, ended.stderr.count(b"\n")), (2, b"", 1), closed)

    def test_interrupt(self):
        with subprocess.Popen([*PROGRAM, "maximize"], stdin=subprocess.PIPE, stdout=subprocess.PIPE, stderr=subprocess.PIPE,
                              bufsize=0) as running:
            running.stdin.write(b"zh-TW\nen-\n" * 5000)
            self.assertEqual(running.stderr.readline(), b"icu-locale: line 2: en-: InvalidSubtag\n")
            for _ in range(4999):
                running.stderr.readline()
            running.send_signal(signal.SIGINT)
            running.wait(timeout=20)  # its input is open still
            written, told = running.communicate(timeout=20)
        self.assertEqual((running.returncode, told), (130, b""))
        self.assertTrue(written.startswith(b"zh-Hant-TW\n\n" * 4999))

    def test_terminal(self):
        ours, theirs = pty.openpty()
        with subprocess.Popen([*PROGRAM, "maximize"], stdin=subprocess.PIPE, stdout=theirs, stderr=subprocess.PIPE) as running:
            running.stdin.write(b"zh-TW\n")
            running.stdin.flush()
            self.assertEqual(select.select([ours], [], [], 20)[0], [ours])  # before there is a second line
            self.assertEqual(os.read(ours, 100), b"zh-Hant-TW\r\n")
            running.communicate(timeout=20)
        self.assertEqual(running.returncode, 0)
        os.close(theirs)
        os.close(ours)

    def test_progress(self):
        bar = mock.Mock()
        tqdm = mock.Mock(tqdm=mock.Mock(return_value=bar))
        with mock.patch.multiple(lines, EVERY=10, SECONDS=-1.0, _is_progress_shown=lambda: True), \
                mock.patch.dict(sys.modules, tqdm=tqdm):
            self.assertEqual(called("minimize", b"zh-TW\n" * 35), (0, "zh-TW\n" * 35, ""))
        self.assertEqual((tqdm.tqdm.call_args[1]["initial"], bar.update.call_count, bar.close.call_count), (10, 2, 1))
        with mock.patch.multiple(lines, EVERY=10, SECONDS=-1.0, _is_progress_shown=lambda: True), \
                mock.patch.dict(sys.modules, tqdm=None):
            self.assertEqual(called("minimize", b"zh-TW\n" * 35), (0, "zh-TW\n" * 35, ""))

    def test_library(self):
        status, written, told = ran("maximize zh", env={**os.environ, "ICU_LOCALE_LIBRARY": "/missing.so"})
        self.assertEqual((status, written, told.count("\n")), (2, "", 1))
        self.assertIn("/missing.so", told)

    def test_data(self):
        good = (_data.data_folder() / "base-and-supplement.gz").read_bytes()
        for damaged in (None, b"", b"no gzip", good[:len(good) // 2], good[:-9] + b"\0" * 9, gzip.compress(b""),
                        gzip.compress(b"{}\n{}\n{}"), gzip.compress(b"\xff\n" * 9)):
            with tempfile.TemporaryDirectory() as folder, mock.patch.object(_data, "FOLDERS", (Path(folder),)):
                if damaged is not None:
                    (Path(folder) / "base-and-supplement.gz").write_bytes(damaged)
                    (Path(folder) / "en.gz").write_bytes(damaged)
                for words in ("maximize zh", "name --in en de", "menu --in en de"):
                    status, written, told = called(words)
                    self.assertEqual((status, written, told.count("\n")), (2, "", 1), (words, damaged and damaged[:9]))
                    self.assertIn("data", told)


if __name__ == "__main__":
    unittest.main()
