"""The packages for arm64: what they are made of, and the library and the programs of the Debian ones under qemu."""
import shutil
import struct
import subprocess
from pathlib import Path

QEMU = ["qemu-aarch64", "-L", "/usr/aarch64-linux-gnu"]
MADE_BY = "tools/build-c --target aarch64-unknown-linux-gnu"
FOR_ARM64 = 183  # the number of AArch64 in a header of ELF
SAMPLE = '{"likely_language":{"und":["en","Latn","US"],"language":{"zh":["Hans","CN"]}},"likely_script_region":{}}'
LINES = "zh\nund\nen-\n"
ANSWERS = "zh-Hans-CN\tM\nund\tU\n?\tInvalidSubtag\n"


def machine(path):
    """The number of the machine of an ELF file."""
    return struct.unpack_from("<H", path.read_bytes(), 18)[0]


def is_for_arm64(folder):
    """Whether each shared object of a folder is one for arm64, and there is one."""
    objects = [path for path in folder.rglob("libicu_locale.so.0") if not path.is_symlink()]
    return bool(objects) and all(machine(path) == FOR_ARM64 for path in objects)


def arm64(trial, caller):
    """The wheel and the Debian packages; `caller` is a source in C of a program over lines."""
    if not (trial.copy / "out" / "c-arm64").is_dir():
        print(f"packages: arm64: not tried: there is no out/c-arm64, which {MADE_BY} leaves")
        return
    wheel(trial)
    debian(trial, caller)


def wheel(trial):
    packed = [path for path in trial.made("wheel-arm64", "whl") if path.name.endswith("-linux_aarch64.whl")]
    folder = trial.elsewhere("wheel-arm64")
    for path in packed:
        shutil.unpack_archive(path, folder, "zip")
        trial.tell("wheel-arm64: its library is for arm64", is_for_arm64(folder))
        path.unlink()


def debian(trial, caller):
    packed = [path for path in trial.made("deb-arm64", "deb") if path.name.endswith("_arm64.deb")]
    if not packed:
        return
    folder = trial.elsewhere("deb-arm64")
    for path in packed:
        subprocess.run(["dpkg-deb", "--extract", path, folder], check=True)
        path.unlink()
    trial.tell("deb-arm64: its library is for arm64", is_for_arm64(folder))
    missing = [tool for tool in ("aarch64-linux-gnu-gcc", "qemu-aarch64") if not shutil.which(tool)]
    if missing:
        print(f"packages: deb-arm64: not run: there is no {' and no '.join(missing)}, of Debian's packages "
              "gcc-aarch64-linux-gnu and qemu-user")
        return
    trial.tell("deb-arm64: a program in C, under qemu", answers(folder, caller) == ANSWERS)
    for name in ("icu_locale_cli", "icu_locale_stream"):
        ended = subprocess.run([*QEMU, folder / "usr" / "bin" / name, "maximize", "json"], input=f"{SAMPLE}\n{LINES}",
                               capture_output=True, text=True, check=False)
        trial.tell(f"deb-arm64: {name}, under qemu", ended.stdout == ANSWERS)


def answers(folder, caller):
    """What a program writes that is built with the unpacked packages alone."""
    library, program, tables = next(folder.rglob("libicu_locale.so.0")).parent, folder / "lines", folder / "tables"
    tables.write_text(SAMPLE)
    words = ["aarch64-linux-gnu-gcc", "-D_GNU_SOURCE", "-std=c11", f"-I{folder}/usr/include", f"-I{Path(caller).parent}",
             caller, f"-L{library}", "-licu_locale", "-o", program]
    subprocess.run(words, check=True)
    words = [*QEMU, "-E", f"LD_LIBRARY_PATH={library}", program, tables, "maximize"]
    return subprocess.run(words, input=LINES, capture_output=True, text=True, check=False).stdout
