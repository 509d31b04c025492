"""Packages for Python, Rust, Go and JavaScript, and a client's vectors, in a release's tree: packages.py TREE. They are those of
packages/, as they are stored, with what a clone hasn't: the player, and wheels of the libraries."""

import os
import re
import shutil
import subprocess
import sys

import headers

TOP = headers.TOP
sys.path.insert(0, f"{TOP}/packages/python")
import build_mouktelf

PLATFORMS = {"x86_64": "manylinux2014_x86_64", "aarch64": "manylinux2014_aarch64"}
NAMES = ("python", "rust", "go", "js", "vectors")


def change(path, *changes):
    """Puts each of these into another's place; each has to be there, once."""
    with open(path, encoding="utf-8") as it:
        text = it.read()
    for old, new in changes:
        if text.count(old) != 1:
            sys.exit(f"packages: {path} has {old!r} {text.count(old)} times")
        text = text.replace(old, new)
    with open(path, "w", encoding="utf-8") as it:
        it.write(text)


def copy_stored(tree, name):
    """A package's files that are in the repository."""
    listed = subprocess.run(["git", "ls-files", "-z", f"packages/{name}"], cwd=TOP, capture_output=True, text=True, check=True)
    for path in filter(None, listed.stdout.split("\0")):
        os.makedirs(os.path.dirname(f"{tree}/{path}"), exist_ok=True)
        shutil.copy(f"{TOP}/{path}", f"{tree}/{path}")


def put_player(tree):
    """The player's C file, where it is compiled, and no word more that asks for it in Go."""
    shutil.copy(f"{tree}/src/mouktelf_play.c", f"{tree}/packages/rust/mouktelf-sys/c/")
    go = f"{tree}/packages/go"
    shutil.copy(f"{tree}/src/mouktelf_play.c", f"{go}/play/")
    shutil.copy(f"{tree}/include/mouktelf.h", f"{go}/play/")
    for path in ("play/play.go", "examples/schedules/main.go"):
        change(f"{go}/{path}", ("//go:build play\n\n", ""))


def wheels(tree):
    for folder in sorted(os.listdir(f"{tree}/lib")):
        library = next(it for it in sorted(os.listdir(f"{tree}/lib/{folder}")) if re.match(r"libmouktelf\.so\.", it))
        platform = PLATFORMS[folder.removesuffix("-linux-gnu")]
        build_mouktelf.wheel_of(f"{tree}/lib/{folder}/{library}", platform, f"{tree}/packages/python")


def main(tree):
    for name in NAMES:
        copy_stored(tree, name)
    if os.path.exists(f"{tree}/src/mouktelf_play.c"):
        put_player(tree)
    wheels(tree)
    change(f"{tree}/packages/vectors/README.md", ("-Ic -o", "-Iinclude -o"), ("c/mouktelf.c", "src/mouktelf.c"),
           ("`scripts/vectors FOLDER` writes", "in the repository `scripts/vectors FOLDER` writes"))


if __name__ == "__main__":
    main(*sys.argv[1:])
