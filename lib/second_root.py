"""The tests' crates and those below them as a root of their own, in a folder outside of the repository.

The gate proves every .rt file that stands in the repository. Tests promise nothing, so they stand in
tests/crates as text: FILE.rs is laid out as FILE.rt, FILE.antt.txt as FILE.antt.
"""

import os
import shutil
import subprocess

ROOT = os.path.dirname(os.path.dirname(os.path.abspath(__file__)))
TESTS = f"{ROOT}/tests/crates"
# Where they are laid out, if no other folder is said.
BESIDE = f"{ROOT}.tests"
MARK = "# Laid out by tests/crates/lay_out.\n"
PARTS = ("src", "specs", "proofs")
# How the ending of a file of tests/crates stands where it is laid out.
ENDINGS = {".rs": ".rt", ".antt.txt": ".antt"}
# A library of tests alone, as a program.
ALONE = """//! What `{name}` does, as a program of its own.
#![tactic(auto)]

use std::process::ExitCode;

fn main(rt: HostRuntime) -> ExitCode {{
    match test_words::given(&rt) {{
        Ok(words) => {name}::run(&rt, words.as_slice()),
        Err(status) => ExitCode::from(status),
    }}
}}
"""


def listed(path):
    """The crates of a list, each with what it stands on."""
    with open(path, encoding="utf-8") as it:
        lines = [line.split("#")[0].partition(":") for line in it if ":" in line.split("#")[0]]
    return {front.split()[0]: behind.split() for front, _, behind in lines}


def below(lower, tests):
    """The crates of the repository that these tests stand on."""
    found = [it for words in tests.values() for it in words if it in lower]
    for name in found:
        found += [it for it in lower[name] if it in lower and it not in found]
    return set(found)


def converted(name, endings):
    for ending, other in endings.items():
        if name.endswith(ending):
            return name[:-len(ending)] + other
    return None


def copy(source, target, endings):
    """Copies the files below a folder whose endings these are. Others aren't copied."""
    for folder, _, names in os.walk(source):
        for name in names:
            new = converted(name, endings)
            if new:
                place = f"{target}/{os.path.relpath(folder, source)}"
                os.makedirs(place, exist_ok=True)
                shutil.copy2(f"{folder}/{name}", f"{place}/{new}")


def refill(source, target, endings):
    """Puts the sources of a crate where they are laid out, in the place of what lies there."""
    for part in PARTS:
        shutil.rmtree(f"{target}/{part}", ignore_errors=True)
        copy(f"{source}/{part}", f"{target}/{part}", endings)


def is_laid_out(folder):
    try:
        with open(f"{folder}/crates.txt", encoding="utf-8") as it:
            return it.readline() == MARK
    except OSError:
        return False


def lay_out(folder):
    """Lays out the tests' crates and those below them, and each library of tests as a program, run_NAME."""
    lower, tests = listed(f"{ROOT}/crates.txt"), listed(f"{TESTS}/needs.txt")
    alone = {f"run_{name}": ["test_words", name] for name in tests
             if name != "test_words" and os.path.exists(f"{TESTS}/{name}/src/lib.rs")}
    needed = below(lower, tests)
    for name in needed:
        refill(f"{ROOT}/crates/{name}", f"{folder}/crates/{name}", {".rt": ".rt", ".antt": ".antt"})
    for name in tests:
        refill(f"{TESTS}/{name}", f"{folder}/crates/{name}", ENDINGS)
    for name, (_, library) in alone.items():
        os.makedirs(f"{folder}/crates/{name}/src", exist_ok=True)
        with open(f"{folder}/crates/{name}/src/main.rt", "w", encoding="utf-8") as it:
            it.write(ALONE.format(name=library))
    shutil.copy2(f"{ROOT}/HANDLES", folder)
    with open(f"{folder}/crates.txt", "w", encoding="utf-8") as it:
        it.write(MARK)
        for name, words in [*((name, lower[name]) for name in lower if name in needed), *tests.items(), *alone.items()]:
            it.write(f"{name}: {' '.join(words)}\n")


def program(name):
    """Where a library of tests is built as a program, by `rt run` in its folder."""
    return f"{BESIDE}/crates/run_{name}/out/run_{name}"


def formatted(folder):
    """How many of the tests' sources in this folder rt fmt leaves as they are, and which not."""
    before, crates = sources(folder), listed(f"{TESTS}/needs.txt")
    refused = [it for it in crates if subprocess.run(["rt", "fmt"], cwd=f"{folder}/crates/{it}", stdin=subprocess.DEVNULL,
                                                     stdout=subprocess.DEVNULL, stderr=subprocess.DEVNULL, check=False).returncode]
    after = sources(folder)
    changed = [it for it in before if before[it] != after.get(it)]
    return len(before) - len(changed), changed + refused


def sources(folder):
    """The text of each source of the tests' crates in this folder."""
    found = {}
    for crate in listed(f"{TESTS}/needs.txt"):
        for place, _, names in os.walk(f"{folder}/crates/{crate}"):
            for name in names:
                if name.endswith(tuple(ENDINGS.values())):
                    with open(f"{place}/{name}", "rb") as it:
                        found[os.path.relpath(f"{place}/{name}", f"{folder}/crates")] = it.read()
    return found


def take_back(folder):
    """Lays out the text of the tests' crates by rt fmt, and takes it back. The crates' names whose text isn't taken."""
    refused = []
    for name in listed(f"{TESTS}/needs.txt"):
        crate = f"{folder}/crates/{name}"
        if subprocess.run(["rt", "fmt"], cwd=crate, check=False).returncode != 0:
            refused.append(name)
            continue
        refill(crate, f"{TESTS}/{name}", {other: ending for ending, other in ENDINGS.items()})
    return refused
