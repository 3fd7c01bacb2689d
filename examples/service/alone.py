#!/usr/bin/env python3
"""Serves a language switcher by the wheel alone: `python3 examples/service/alone.py PORT LOCALE..`.

The first LOCALE is served where no other is near to what is wanted. With 0 for PORT it takes one that is free. It writes its
address, and answers each reader, by the header Accept-Language, with what is served and the menu in it, as JSON.
"""
import json
import sys
from http.server import BaseHTTPRequestHandler, ThreadingHTTPServer
WRONG = "examples/service/alone.py: the words are PORT LOCALE.."


def main() -> int:
    if sys.argv[1:] in (["--help"], ["-h"]):
        print(__doc__.strip())
        return 0
    if len(sys.argv) < 3 or not sys.argv[1].isdecimal():
        print(WRONG, file=sys.stderr)
        return 2
    port, *locales = sys.argv[1:]
    from icu_locale import Tables

    tables = Tables.cldr(locales)
    switcher = tables.switcher(locales, default=locales[0])

    class Handler(BaseHTTPRequestHandler):
        timeout = 10

        def do_GET(self) -> None:
            locale = switcher.serve(self.headers.get_all("Accept-Language", []))
            rows = [row._asdict() for row in tables.menu(locales, locale, fallback=True)]
            told = {"locale": locale, "direction": tables.direction(locale), "menu": rows}
            body = json.dumps(told, ensure_ascii=False).encode()
            self.send_response(200)
            for name, value in (("Content-Type", "application/json"), ("Content-Length", str(len(body))),
                                ("Content-Language", locale), ("Vary", "Accept-Language")):
                self.send_header(name, value)
            self.end_headers()
            self.wfile.write(body)

    with ThreadingHTTPServer(("127.0.0.1", int(port)), Handler) as server:
        print(f"http://127.0.0.1:{server.server_port}/", flush=True)
        server.serve_forever()
    return 0


if __name__ == "__main__":
    sys.exit(main())
