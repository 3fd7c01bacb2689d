#!/usr/bin/env python3
"""Tests the switcher and the service over tables of CLDR.

    examples/service/tests.py STREAM PROGRAM TABLES SUPPLEMENT [PICTURE]

STREAM is icu_locale_stream and PROGRAM icu_locale_cli; TABLES and SUPPLEMENT are files as the service reads them, the
first with the locales of LOCALES. Each answer of a process that is kept is compared with that of one run of PROGRAM:
one question after another, from eight threads, and while the process is killed again and again. Then the service is asked
by HTTP, and what it serves is what `serve` of STREAM answers; it is ended while it answers, and cuts none. Headless Chromium looks at its page where there is one, and
leaves PICTURE where it is named. The last line says how long a question takes beside one that starts a process. The status
is 1 where something is wrong.
"""
from __future__ import annotations

import contextlib
import json
import shutil
import signal
import socket
import subprocess
import sys
import threading
import time
import urllib.error
import urllib.request
from concurrent.futures import ThreadPoolExecutor
from pathlib import Path

sys.dont_write_bytecode = True
HERE = Path(__file__).resolve().parent
sys.path.insert(0, str(HERE))
sys.path.insert(0, str(HERE.parents[1] / "tools"))

from script import Words  # noqa: E402
import switcher  # noqa: E402
from switcher import Stream  # noqa: E402

SLOWEST = 13  # seconds: a reader may take ten
LOCALES = ["en", "de", "ar", "ja", "zh-Hant", "sr-Latn"]
# A header, what is served for it, and which way that runs.
SERVED = [
    ("en-GB", "en", "ltr"), ("de-AT;q=0.5, en;q=0.4", "de", "ltr"), ("ar-EG", "ar", "rtl"), ("ja-JP", "ja", "ltr"),
    ("zh-HK", "zh-Hant", "ltr"), ("zh-CN, de;q=0.1", "de", "ltr"), ("sr-ME", "sr-Latn", "ltr"), ("sr", "sr-Latn", "ltr"),
    ("sh", "sr-Latn", "ltr"), ("de-1996", "de", "ltr"), ("zz-zz-zz, *", "en", "ltr"), ("", "en", "ltr"),
    ("de;q=0, ja;q=0.2", "ja", "ltr"), ("de;q=x, ja", "ja", "ltr"), ("fr-u-ca-buddhist, ar-u-nu-latn", "ar", "rtl"),
    ("gsw", "de", "ltr"), ("lb", "de", "ltr"), ("yue-HK", "zh-Hant", "ltr"), ("arz", "ar", "rtl"),
    ("yue-Hans, ja;q=0.1", "ja", "ltr"), ("zh-CN", "en", "ltr"), ("fr", "en", "ltr"), ("*;q=0", "en", "ltr"),
]
# Header lines as they come, and what is served.
LINES = [
    ("Accept-Language: fr,\r\n ja", "ja"), ("Accept-Language: fr\r\nHost: x\r\naccept-language: ja", "ja"),
    ("Accept-Language: de;q=0.1\r\nAccept-Language: ja;q=0.2", "ja"), ("Accept-Language: " + "fr," * 21000 + "ja", "en"),
    ("Host: x", "en"),
]


def one_run(program: str, words: list[str], tables: str, lines: list[str]) -> list[list[str]]:
    """The answers of one run."""
    text = tables + "\n".join(lines) + "\n"
    run = subprocess.run([program, *words, "json"], input=text, capture_output=True, text=True, encoding="utf-8")
    return [line.split("\t") for line in run.stdout.splitlines()]


def check_stream(stream: str, program: str, tables: str) -> list[str]:
    """What is wrong with a process that is kept: of 1,000 questions one by one, by eight threads, and with kills."""
    letters = "abcdefghijklmnopqrst"
    lines = [f"{a}{b}{c}" for a in letters[:10] for b in letters[:10] for c in ("", "-Latn", "-US", "-a", "-Cyrl-RS",
             "-150", "-fonipa", "-419", "-Zzzz", "-ZZ")]
    answers = dict(zip(lines, one_run(program, ["maximize"], tables, lines), strict=True))
    kept = Stream([stream, "maximize", "json"], tables)
    faults = [f"{line}: another answer" for line in lines if kept.ask(line) != answers[line]]
    with ThreadPoolExecutor(8) as pool:
        faults += [f"{line}: another answer, by threads" for line, it in zip(lines, pool.map(kept.ask, lines))
                   if it != answers[line]]
        stop = threading.Event()
        killer = threading.Thread(target=kill_again, args=(kept, stop))
        killer.start()
        faults += [f"{line}: another answer, with kills" for line, it in zip(lines, pool.map(kept.ask, lines))
                   if it != answers[line]]
        stop.set()
        killer.join()
    faults += [f"{line}: another answer, of a process that stood still" for line in lines[:2]
               if stopped(kept).ask(line) != answers[line]]
    kept.end()
    return faults


def stopped(kept: Stream) -> Stream:
    """A stream whose process stands still."""
    switcher.SECONDS = 2.0
    kept.process.send_signal(signal.SIGSTOP)
    return kept


def kill_again(kept: Stream, stop: threading.Event) -> None:
    """Kills the process of a stream every now and then, with no word to the stream."""
    while not stop.wait(0.02):
        process = kept.process
        if process is not None:
            process.kill()
            time.sleep(0.1)


def fetched(address: str, header: str) -> dict:
    request = urllib.request.Request(address + "menu", headers={"Accept-Language": header})
    with urllib.request.urlopen(request) as answer:
        return json.load(answer)


def connected(address: str) -> socket.socket:
    host, port = address.removeprefix("http://").strip("/").split(":")
    return socket.create_connection((host, int(port)), timeout=60)


def by_lines(address: str, lines: str) -> str:
    """What is served for header lines as they are."""
    with connected(address) as reader:
        reader.sendall(f"GET /menu HTTP/1.0\r\n{lines}\r\n\r\n".encode())
        return json.loads(reader.makefile("rb").read().split(b"\r\n\r\n", 1)[1])["locale"]


def check_http(address: str) -> list[str]:
    """What is wrong with HEAD, with a query, and with the header that tells the language."""
    faults = []
    for path, status, locale in [("", 200, "ar"), ("menu", 200, "ar"), ("menu?other=1", 200, "ar"), ("?locale=ja", 200, "ja"),
                                 ("menu?locale=zh-TW", 200, "zh-Hant"), ("menu?locale=fr", 200, "ar"),
                                 ("menu?locale=%0d%0a&locale=ja", 200, "ar"), ("missing?locale=ja", 404, None)]:
        told = {method: asked(address + path, method) for method in ("GET", "HEAD")}
        if any((it[0], it[1]) != (status, locale) for it in told.values()):
            faults.append(f"/{path}: {told}")
        if told["HEAD"][3] or not told["GET"][3] or (status == 200 and told["GET"][2] != told["HEAD"][2]):
            faults.append(f"/{path}: HEAD is not GET without its body")
    with connected(address) as reader:
        reader.sendall(b"GET http://[::1/menu HTTP/1.0\r\n\r\n")
        told = reader.makefile("rb").readline()
    return faults + ([] if b" 400 " in told else [f"http://[::1/menu: {told!r}"])


def asked(address: str, method: str) -> tuple[int, str | None, str | None, bytes]:
    """The status, the language, the length and the body of an answer to a reader of Arabic."""
    request = urllib.request.Request(address, headers={"Accept-Language": "ar"}, method=method)
    try:
        with urllib.request.urlopen(request) as answer:
            headers = answer.headers
            return answer.status, headers["Content-Language"], headers["Content-Length"], answer.read()
    except urllib.error.HTTPError as fault:
        with fault:
            return fault.code, fault.headers["Content-Language"], None, fault.read()


def ends_whole(reader: socket.socket) -> bool:
    """Whether a question that was begun is answered to its end."""
    reader.settimeout(10)
    try:
        reader.sendall(b"\r\n")
        return reader.makefile("rb").read().endswith(b"]}")
    except OSError:
        return False


def check_end(service: subprocess.Popen[str], address: str, number: int) -> list[str]:
    """What is wrong with how the service ends: eight readers ask until it is gone, and one has asked half a question."""
    counts = {"whole": 0, "cut": 0}

    def ask_on() -> None:
        until = time.monotonic() + 30
        while time.monotonic() < until:
            try:
                with connected(address) as reader:
                    reader.sendall(b"GET /menu HTTP/1.0\r\nAccept-Language: ja\r\n\r\n")
                    text = reader.makefile("rb").read()
            except OSError:  # it takes no reader any more
                return
            counts["whole" if text.endswith(b"]}") else "cut"] += 1

    with ThreadPoolExecutor(8) as pool, connected(address) as slow:
        slow.sendall(b"GET /menu HTTP/1.0\r\n")
        readers = [pool.submit(ask_on) for _ in range(8)]
        time.sleep(0.5)
        service.send_signal(number)
        for reader in readers:
            reader.result()
        half = ends_whole(slow)
    try:
        status = service.wait(20)
    except subprocess.TimeoutExpired:
        service.kill()
        return [f"signal {number}: it does not end"]
    is_so = half and status == 0 and counts["whole"] > 8 and not counts["cut"]
    return [] if is_so else [f"signal {number}: {counts}, half a question answered: {half}, status {status}"]


def check_dripping(service: subprocess.Popen[str], address: str) -> list[str]:
    """What is wrong where a reader sends a byte now and then, and the service is to end."""
    with connected(address) as reader:
        reader.sendall(b"GET /menu HTTP/1.0\r\nX: ")
        service.send_signal(signal.SIGTERM)
        begun = time.monotonic()
        while service.poll() is None and time.monotonic() - begun < 30:
            with contextlib.suppress(OSError):
                reader.sendall(b"x")
            time.sleep(0.3)
    took = time.monotonic() - begun
    service.kill()
    return [] if took < SLOWEST else [f"a reader that drips: the service takes {took:.0f} s to end"]


def check_service(address: str) -> list[str]:
    """What is wrong with the service: what is served, and 1,000 questions from eight threads."""
    first = {header: fetched(address, header) for header, _, _ in SERVED}
    faults = [f"{header!r}: {first[header]['locale']} is served" for header, locale, direction in SERVED
              if (first[header]["locale"], first[header]["direction"]) != (locale, direction)]
    faults += [f"{lines[:60]!r}: not {locale}" for lines, locale in LINES if by_lines(address, lines) != locale]
    headers = [SERVED[at % len(SERVED)][0] for at in range(1000)]
    with ThreadPoolExecutor(8) as pool:
        answers = list(pool.map(lambda header: fetched(address, header), headers))
    return faults + [f"{header!r}: another answer, by threads" for header, it in zip(headers, answers) if it != first[header]]


def check_served(stream: str, tables: str, supplement: str) -> list[str]:
    """Where SERVED is not what one run of the stream answers, the first locale where that is none."""
    text = "\n".join([tables.strip(), supplement.strip(), " ".join(LOCALES), *(row[0] for row in SERVED)]) + "\n"
    run = subprocess.run([stream, "serve", "json", "supplement"], input=text, capture_output=True, text=True, encoding="utf-8")
    answers = [line.rpartition("\t")[2] for line in run.stdout.splitlines()]
    return [f"{row[0]!r}: {answer} by the stream" for row, answer in zip(SERVED, answers, strict=True)
            if row[1] != (LOCALES[0] if answer == "none" else answer)]


def check_page(address: str, picture: str | None) -> list[str]:
    """What is wrong with the page in four languages, as Chromium shows it."""
    browser = shutil.which("chromium")
    if browser is None:
        print("service: the page is not looked at: there is no Debian package chromium")
        return []
    faults = []
    for language, direction, name in [("en", "ltr", "English"), ("de", "ltr", "Deutsch"), ("ja", "ltr", "日本語"),
                                      ("ar", "rtl", "العربية")]:
        words = [browser, "--headless", "--no-sandbox", "--disable-gpu", f"--accept-lang={language}"]
        page = subprocess.run([*words, "--dump-dom", address], capture_output=True, text=True, encoding="utf-8").stdout
        if f'<html lang="{language}" dir="{direction}">' not in page or f"<h1>{name}</h1>" not in page:
            faults.append(f"page: not in {language}")
        if picture and language == "ar":
            subprocess.run([*words, f"--screenshot={picture}", "--window-size=560,520", address], capture_output=True)
    return faults


def times(stream: str, program: str, tables: str) -> str:
    """How long a question takes, of a process that is kept and of one that is started for it."""
    kept = Stream([stream, "maximize", "json"], tables)
    kept.ask("en")
    begun = time.perf_counter()
    for _ in range(2000):
        kept.ask("zh-HK")
    asked = (time.perf_counter() - begun) / 2000
    kept.end()
    begun = time.perf_counter()
    for _ in range(50):
        one_run(program, ["maximize"], tables, ["zh-HK"])
    started = (time.perf_counter() - begun) / 50
    return f"a question takes {asked * 1e6:.0f} microseconds, and {started * 1e3:.1f} milliseconds with a process of its own"


def main() -> int:
    parser = Words("examples/service/tests.py", __doc__)
    for word in ("stream", "program", "tables", "supplement"):
        parser.add_argument(word, metavar=word.upper())
    parser.add_argument("picture", metavar="PICTURE", nargs="?")
    words = parser.parse_args()
    stream, program = words.stream, words.program
    tables = Path(words.tables).read_text(encoding="utf-8").strip() + "\n"
    faults = check_stream(stream, program, tables)
    faults += check_served(stream, tables, Path(words.supplement).read_text(encoding="utf-8"))
    command = [sys.executable, HERE / "service", stream, words.tables, words.supplement, "0", *LOCALES]
    for number in (signal.SIGTERM, signal.SIGINT):
        with subprocess.Popen(command, stdout=subprocess.PIPE, text=True) as service:
            address = service.stdout.readline().strip()
            if number == signal.SIGTERM:
                faults += check_service(address) + check_http(address) + check_page(address, words.picture)
            faults += check_end(service, address, number)
    with subprocess.Popen(command, stdout=subprocess.PIPE, text=True) as service:
        faults += check_dripping(service, service.stdout.readline().strip())
    for fault in faults[:20]:
        print(fault)
    print(times(stream, program, tables))
    print(f"service: {len(faults)} faults")
    return 1 if faults else 0


if __name__ == "__main__":
    sys.exit(main())
