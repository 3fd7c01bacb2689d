"""Documents whose measured parts are between two marks, and are written anew."""
import datetime
import os
import platform
import re
from pathlib import Path

from .programs import Stop

# Below this load a machine counts as idle.
IDLE = 0.5


def processor():
    """The name of the processor, where the system tells it."""
    try:
        found = re.search(r"^model name\s*: (.*)$", Path("/proc/cpuinfo").read_text(), re.M)
    except OSError:
        found = None
    return found[1] if found else platform.machine()


def machine(versions):
    """When, on what machine and with what versions, as lines of Markdown."""
    memory = os.sysconf("SC_PAGE_SIZE") * os.sysconf("SC_PHYS_PAGES") / 1e9
    yield f"- {datetime.date.today().isoformat()}"
    yield f"- {processor()}, {os.cpu_count()} processors, {memory:.0f} GB, {platform.system()} {platform.release()}"
    load = os.getloadavg()[0]
    yield "- an idle machine" if load < IDLE else f"- other work beside it: a load of {load:.1f} before"
    yield from (f"- {version}" for version in versions)


def put(path, section, lines):
    """Puts lines between the marks of a section of a document."""
    text = path.read_text()
    begin, end = f"<!-- measured: {section} -->\n", f"<!-- end: {section} -->"
    head, found, rest = text.partition(begin)
    _, ends, tail = rest.partition(end)
    if not found or not ends:
        raise Stop(f"{path} has no marks of the section {section}")
    path.write_text(head + begin + "\n" + "\n".join(lines) + "\n\n" + end + tail)
