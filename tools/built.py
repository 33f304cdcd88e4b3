#!/usr/bin/env python3
"""Finds a crate's program or static library where the Rattle kit builds it, and has it built where it is missing or older than its sources.

    python3 -B tools/built.py NAME..      a line for each crate: where its program or library is. What is said of a build goes into target/built.log

A program is crates/NAME/out/NAME. `rt ci` leaves it there; `rt run` in the crate's folder builds it, and the libraries below it first where they have changed. A static
library is crates/NAME/out/libNAME.a, which `rt lib` in the crate's folder builds. `rt ci` proves one and builds none: where target/ci.libraries says that .ci/run has proved the
libraries below of the same sources, it is built over those, by the words of `rt lib`, which would prove them all once more.
"""
import hashlib
import os
import re
import shutil
import signal
import subprocess
import sys
import time

ROOT = os.path.dirname(os.path.dirname(os.path.abspath(__file__)))
GATE = os.path.join(ROOT, "target", "ci.libraries")  # sums of the libraries that `rt ci` proved for .ci/run; its time is that at which that began


def kit():
    """The Rattle kit's folder."""
    rt = shutil.which("rt")
    if not rt:
        raise FileNotFoundError(2, "there is no such program", "rt")
    return os.path.dirname(os.path.dirname(os.path.realpath(rt)))


# ---------------------------------------------------------------- crates

def listed():
    """The crates of crates.txt: whether each is a static library, and what it uses."""
    found = {}
    with open(os.path.join(ROOT, "crates.txt")) as file:
        for line in file:
            words, _, uses = line.partition("#")[0].partition(":")
            if words.strip():
                name, *kinds = words.split()
                found[name] = "staticlib" in kinds, uses.split()
    return found


def needed(name):
    """The crates of this repository that a crate is made of, in the order in which rt builds them: it comes last."""
    crates, found = listed(), []

    def put(one):
        for dep in crates[one][1]:
            if dep in crates and dep not in found:
                put(dep)
        found.append(one)

    put(name)
    return found


def folder(name, *path):
    return os.path.join(ROOT, "crates", name, *path)


def place(name):
    """Where a crate's program or static library stands."""
    return folder(name, "out", f"lib{name}.a" if listed()[name][0] else name)


def sources(crates):
    """Files and folders: what is added or removed is seen by its folder's time."""
    yield os.path.join(ROOT, "crates.txt")
    for name in crates:
        for part in ("src", "specs", "proofs"):
            for top, _, files in os.walk(folder(name, part)):
                yield top
                yield from (os.path.join(top, file) for file in files)


def no_newer(crates, made):
    """Whether all sources of these crates are at least as old as the file."""
    if not os.path.exists(made):
        return False
    then = os.stat(made).st_mtime_ns
    return all(os.lstat(source).st_mtime_ns <= then for source in sources(crates))


def is_built(name):
    return no_newer(needed(name), place(name))


# ---------------------------------------------------------------- building

def library(name):
    return folder(name, "out", "rlib", f"{name}.rlib")


def proved_by_gate(name):
    """Whether the libraries below a crate are those that .ci/run proved, of the sources that are there now."""
    if not os.path.exists(GATE):
        return False
    with open(GATE) as file:
        sums = dict(line.split()[::-1] for line in file)
    for crate in needed(name)[:-1]:
        kept = os.path.join(library(crate), "format")
        if not os.path.exists(kept):
            return False
        with open(kept, "rb") as file:
            if sums.get(os.path.relpath(kept, ROOT)) != hashlib.sha256(file.read()).hexdigest():
                return False
    return no_newer(needed(name), GATE)


def run(command, name, log, see=lambda line: None):
    """Runs a command in a crate's folder and shows each line that it writes, which goes into the log too; its status. A Ctrl-C ends all that it started."""
    p = subprocess.Popen(command, cwd=folder(name), stdin=subprocess.DEVNULL, stdout=subprocess.PIPE, stderr=subprocess.STDOUT, text=True, errors="replace",
                         start_new_session=True)
    try:
        for line in p.stdout:
            log.write(line)
            log.flush()
            see(line)
        return p.wait()
    except KeyboardInterrupt:
        os.killpg(p.pid, signal.SIGTERM)
        p.wait()
        sys.exit("stopped: what was proved is kept, the rest comes with the next call")


def by_rt(name, log, tell):
    """Has rt prove and build a crate, and the libraries below it where they have changed; whether it did. Tells a line for each that it proves."""
    order, is_library, runs = needed(name), listed()[name][0], False
    crate, since = name, time.time()

    def see(line):
        nonlocal crate, since, runs
        if found := re.match(r"rt: chose --jobs \d+ for (\w+)$", line):
            crate, since = found[1], time.time()
        elif line.startswith("logic=proved "):
            tell(f"{order.index(crate) + 1} of {len(order)} {crate}, {time.time() - since:.0f} s")
        elif line.startswith("logic="):
            tell(f"{crate} NOT PROVED")
        elif line.startswith("rt: the library "):
            tell(line.rstrip())
        elif line.startswith(f"rt: running out/{name};"):
            runs = True

    status = run(["rt", "lib" if is_library else "run"], name, log, see)
    return status == 0 if is_library else runs  # a program that is given nothing ends as it will


def by_rattle(name, log, toolchain=None):
    """Builds a static library over the libraries below it as they stand in out/, with this toolchain in place of the kit's; whether it did."""
    home, crates, kept = kit(), listed(), folder(name, "out", "incremental")
    words = ["--crate-name", name, os.path.join("src", "lib.rt"), "-L", f"dependency={home}/rlibs"]
    for dep in ("std", *crates[name][1]):
        words += ["--extern", f"{dep}={library(dep) if dep in crates else f'{home}/rlibs/{dep}.rlib'}"]
    for below in needed(name)[:-1]:
        words += ["-L", f"dependency={os.path.dirname(library(below))}"]
    words += ["--antt-project", f"{home}/rattle/logic/antt-project.json", "--logic-built", f"{home}/logic_built", "--jobs", "2", "--links", f"{name}="]
    words += ["--incremental", kept] if os.path.isdir(kept) else []
    words += ["--crate-type", "staticlib", "--backend", "llvm", "--toolchain", toolchain or f"{home}/toolchain", "-o", place(name)]
    os.makedirs(folder(name, "out"), exist_ok=True)
    return run([f"{home}/bin/rattle", "build", *words], name, log) == 0


def build(name, log, tell=lambda line: None, toolchain=None):
    """Proves and builds a crate's program or static library; whether that was done. What rt says goes into the log, a file's name below the top folder."""
    began, is_proved = time.time_ns(), listed()[name][0] and proved_by_gate(name)
    log = os.path.join(ROOT, log)
    os.makedirs(os.path.dirname(log), exist_ok=True)
    with open(log, "w") as file:
        is_made = is_proved or by_rt(name, file, tell)
        if is_made and (is_proved or toolchain):
            is_made = by_rattle(name, file, toolchain)
    if not is_made or not os.path.exists(place(name)):
        return False
    os.utime(place(name), ns=(began, began))  # what was written since may not be in it
    return True


def main():
    log = os.path.join("target", "built.log")
    for name in sys.argv[1:] or sys.exit(__doc__.strip()):
        if name not in listed():
            sys.exit(f"crates.txt lists no {name}")
        if not is_built(name) and not build(name, log):
            with open(os.path.join(ROOT, log)) as file:
                sys.exit(f"{file.read()}{name} could not be built; the log is {log}")
        print(os.path.relpath(place(name), ROOT))


if __name__ == "__main__":
    main()
