"""Small tables and their supplement, as the examples ask them."""
from pathlib import Path

_HERE = Path(__file__).resolve().parent
TABLES = (_HERE / "example.json").read_text(encoding="utf-8")
SUPPLEMENT = (_HERE / "example-supplement.json").read_text(encoding="utf-8")
