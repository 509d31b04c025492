"""Builds the package where it stands, with the C compiler that there is (CC, or cc) and nothing else: what pip calls by
pyproject.toml (PEP 517). `wheel_of` makes a wheel of a library that was built elsewhere, as a release's is.

    python3 build_mouktelf.py [FOLDER]     writes a wheel into a folder, this one if none is named"""

import base64
import hashlib
import os
import re
import shlex
import subprocess
import sys
import sysconfig
import tarfile
import tempfile
import time
import zipfile

HERE = os.path.dirname(os.path.abspath(__file__))
C_FILES = ("mouktelf", "mouktelf_judge")
FLAGS = ("-std=c11", "-O2", "-fPIC", "-shared")


def bytes_of(name):
    with open(f"{HERE}/{name}", "rb") as it:
        return it.read()


def said(key):
    """A value of pyproject.toml: Python 3.8 has no reader of it."""
    return re.search(rf'(?m)^{key} = "(.*)"$', bytes_of("pyproject.toml").decode())[1]


def metadata():
    return (f"Metadata-Version: 2.1\nName: mouktelf\nVersion: {said('version')}\nSummary: {said('description')}\n"
            "License: none is chosen yet (LICENCE)\nLicense-File: LICENCE\nClassifier: Private :: Do Not Upload\n"
            f"Requires-Python: {said('requires-python')}\n"
            "Provides-Extra: tds\nRequires-Dist: python-tds; extra == 'tds'\nDescription-Content-Type: text/markdown\n\n").encode() + bytes_of("README.md")


def compiled(to):
    """The library of the C files, in this folder."""
    library = f"{to}/libmouktelf.so.{'.'.join(said('version').split('.')[:2])}"
    words = [*shlex.split(os.environ.get("CC", "cc")), *FLAGS, *shlex.split(os.environ.get("CFLAGS", "")), "-o", library]
    words += [f"{HERE}/c/{it}.c" for it in C_FILES]
    try:
        subprocess.run(words, check=True)
    except FileNotFoundError:
        sys.exit(f"mouktelf: there is no {words[0]} here: a C compiler is wanted (Debian's package gcc), and CC names another one")
    except subprocess.CalledProcessError:
        sys.exit(f"mouktelf: {words[0]} can't compile {HERE}/c")
    return library


def wheel_of(library, platform, folder):
    """Writes the wheel of a library; a wheel is a zip, with a list of what is in it. Its name."""
    places = [os.path.relpath(folder, f"{HERE}/src") for folder, _, _ in os.walk(f"{HERE}/src/mouktelf")]
    names = [f"{place}/{it}" for place in places for it in os.listdir(f"{HERE}/src/{place}") if it.endswith((".py", ".typed"))]
    files = {it: bytes_of(f"src/{it}") for it in names}
    with open(library, "rb") as it:
        files[f"mouktelf/{os.path.basename(library)}"] = it.read()
    info, tag = f"mouktelf-{said('version')}.dist-info", f"py3-none-{platform}"
    files[f"{info}/METADATA"], files[f"{info}/LICENCE"] = metadata(), bytes_of("LICENCE")
    files[f"{info}/WHEEL"] = f"Wheel-Version: 1.0\nGenerator: mouktelf\nRoot-Is-Purelib: false\nTag: {tag}\n".encode()
    files[f"{info}/entry_points.txt"] = b"[sqlalchemy.dialects]\nmssql.mouktelf = mouktelf.tds.sqlalchemy:Dialect\n"
    rows = ""
    for name, data in sorted(files.items()):
        digest = base64.urlsafe_b64encode(hashlib.sha256(data).digest()).rstrip(b"=").decode()
        rows += f"{name},sha256={digest},{len(data)}\n"
    files[f"{info}/RECORD"] = f"{rows}{info}/RECORD,,\n".encode()
    when = time.gmtime(int(os.environ.get("SOURCE_DATE_EPOCH", "1700000000")))[:6]
    wheel = f"mouktelf-{said('version')}-{tag}.whl"
    with zipfile.ZipFile(f"{folder}/{wheel}", "w", zipfile.ZIP_DEFLATED) as it:
        for name, data in sorted(files.items()):
            entry = zipfile.ZipInfo(name, when)
            entry.external_attr = 0o644 << 16
            it.writestr(entry, data, zipfile.ZIP_DEFLATED)
    return wheel


# What pip calls.


def build_wheel(wheel_directory, config_settings=None, metadata_directory=None):
    with tempfile.TemporaryDirectory() as room:
        platform = re.sub(r"[-.]", "_", sysconfig.get_platform())
        return wheel_of(compiled(room), platform, wheel_directory)


def build_sdist(sdist_directory, config_settings=None):
    front = f"mouktelf-{said('version')}"
    with tarfile.open(f"{sdist_directory}/{front}.tar.gz", "w:gz") as out:
        for folder, folders, names in os.walk(HERE):
            folders[:] = [it for it in sorted(folders) if it != "__pycache__"]
            for name in sorted(names):
                path = os.path.join(folder, name)
                out.add(path, f"{front}/{os.path.relpath(path, HERE)}")
        with tempfile.NamedTemporaryFile() as info:
            info.write(metadata())
            info.flush()
            out.add(info.name, f"{front}/PKG-INFO")
    return f"{front}.tar.gz"


if __name__ == "__main__":
    print(build_wheel(sys.argv[1] if sys.argv[1:] else HERE))
