#!/usr/bin/env python3
"""Builds a program of this repository: proves each crate that it stands on, and compiles it.

usage: build.py PROGRAM [--times FILE]

Crates are proved side by side, on as many processors as memory allows. The first line tells what there is to do and how long it will
take, by what each crate took the last time (release/times); then a line tells of each crate as it is done, and where standard error is a
terminal, a line below shows what is at work. A crate is built again where its files, those of a crate below it or the kit have changed,
so a build that was cut off goes on where it was. What was built is kept in the user's cache, since the gate wants no sources in the
repository but its own, and libraries hold theirs. The program is crates/PROGRAM/out/PROGRAM. With --times the processor seconds of the
crates that were built are written into a file, and those of the others kept.
"""
import argparse
import concurrent.futures
import functools
import hashlib
import os
import pathlib
import shutil
import subprocess
import sys
import threading
import time

ROOT = pathlib.Path(__file__).resolve().parent.parent
CACHE = pathlib.Path(os.environ.get("XDG_CACHE_HOME") or pathlib.Path.home() / ".cache")
BUILD = CACHE / "sqlr" / hashlib.sha256(str(ROOT).encode()).hexdigest()[:12]
# What each crate took the last time that a release was made, in processor seconds.
TIMES = ROOT / "release/times"
# What a check takes at most, in bytes, as seen in this repository.
MEMORY = 2_500_000_000
TARGET = "x86_64-unknown-linux-gnu"


class Crate:
    """A crate of the repository: its libraries of the repository, and those of the kit."""

    def __init__(self, name, uses, crates):
        self.name = name
        self.deps = [crates[it] for it in uses if it in crates]
        self.of_kit = ["std", *(it for it in uses if it not in crates)]
        self.folder = ROOT / "crates" / name
        self.is_program = (self.folder / "src/main.rt").is_file()
        self.room = BUILD / name
        self.rlib = self.room / f"{name}.rlib"

    @functools.cached_property
    def below(self):
        """The crates that this one stands on, each behind those that it stands on itself."""
        return list(dict.fromkeys(it for dep in self.deps for it in [*dep.below, dep]))

    @functools.cached_property
    def sources(self):
        """A sum over the crate's own files and over those of the crates below it, which are read once a run."""
        said = hashlib.sha256()
        files = sorted(it for part in ("src", "specs", "proofs") for it in (self.folder / part).rglob("*") if it.is_file())
        for file in files:
            said.update(f"{file.relative_to(ROOT)}\0".encode() + file.read_bytes() + b"\0")
        said.update(" ".join([*self.of_kit, *(dep.sources for dep in self.deps)]).encode())
        return said.hexdigest()

    def stamp(self, kit):
        """A sum over all that the crate is built of."""
        return hashlib.sha256(kit.identity + self.sources.encode()).hexdigest()

    def is_built(self, kit):
        kept = self.room / "stamp"
        return kept.is_file() and kept.read_text() == self.stamp(kit)


class Kit:
    """The toolchain that `rt` belongs to."""

    def __init__(self):
        page = subprocess.run(["rt", "doc"], capture_output=True, text=True, check=True).stdout
        self.folder = pathlib.Path(page.strip()).parent
        self.identity = (self.folder / "KIT-ID").read_bytes()

    def words(self, crate, jobs, verb, kept):
        """The command that proves a crate on so many processors, over what an earlier one kept."""
        words = [self.folder / "bin/rattle", verb, "--crate-name", crate.name]
        words += ["src/main.rt" if crate.is_program else "src/lib.rt"]
        for name in crate.of_kit:
            words += ["--extern", f"{name}={self.folder}/rlibs/{name}.rlib"]
        words += ["-L", f"dependency={self.folder}/rlibs"]
        for dep in crate.deps:
            words += ["--extern", f"{dep.name}={dep.rlib}"]
        for dep in crate.below:
            words += ["-L", f"dependency={dep.room}"]
        words += ["--antt-project", self.folder / "rattle/logic/antt-project.json"]
        words += ["--logic-built", self.folder / "logic_built", "--jobs", str(jobs), "--links", f"{crate.name}="]
        return [*words, "--incremental", kept]

    def check_words(self, crate, kept):
        """The command that proves a crate, and builds nothing."""
        return self.words(crate, 1, "check", kept)

    def build_words(self, crate, jobs):
        """The command that proves a crate and builds it."""
        words = self.words(crate, jobs, "build", crate.room / "incremental")
        if crate.is_program:
            return [*words, "--toolchain", self.folder / "toolchain", "--backend", "llvm", "-o", crate.room / "program.o"]
        return [*words, "-o", crate.rlib]

    def link(self, crate):
        """The command that links a program that is proved and compiled."""
        words = [self.folder / "bin/rattle-link", "--target", TARGET, "--toolchain", self.folder / "toolchain"]
        words += ["-o", crate.room / crate.name, crate.room / "program.o"]
        return [*words, self.folder / "c/libos_c.a", self.folder / "c/liblibc_c.a"]


def crates_below(program):
    """The program and the crates that it stands on, lowest first."""
    uses = {}
    for line in (ROOT / "crates.txt").read_text().splitlines():
        name, _, words = line.partition("#")[0].partition(":")
        if name.strip():
            uses[name.strip()] = words.split()
    crates = {}

    def add(name):
        if name in uses and name not in crates:
            for it in uses[name]:
                add(it)
            crates[name] = Crate(name, uses[name], crates)

    add(program)
    return list(crates.values())


def run(words, folder, log):
    """Runs a command, and gives its status and the processor seconds that it took."""
    ran = subprocess.Popen(words, cwd=folder, stdin=subprocess.DEVNULL, stdout=log, stderr=log)
    _, status, used = os.wait4(ran.pid, 0)
    ran.returncode = os.waitstatus_to_exitcode(status)
    return ran.returncode, used.ru_utime + used.ru_stime


def build(crate, kit, jobs):
    """Builds a crate, and gives the status and its processor seconds; what was said is kept beside it."""
    crate.room.mkdir(parents=True, exist_ok=True)
    (crate.room / "stamp").unlink(missing_ok=True)
    stamp = crate.stamp(kit)
    commands = [kit.build_words(crate, jobs), *([kit.link(crate)] if crate.is_program else [])]
    total = 0
    with open(crate.room / "log", "wb") as log:
        for words in commands:
            status, seconds = run(words, crate.folder, log)
            total += seconds
            if status:
                return status, total
    (crate.room / "stamp").write_text(stamp)
    return 0, total


def lanes(each=1):
    """How many checks run side by side: so many for each processor, as far as there is memory for them."""
    free = int(next(it for it in open("/proc/meminfo") if it.startswith("MemAvailable")).split()[1]) * 1024
    return max(1, min(int(len(os.sched_getaffinity(0)) * each), free // MEMORY))


class Progress:
    """Tells on standard error how far the build is."""

    def __init__(self, count):
        self.count, self.done, self.began = count, 0, time.monotonic()
        self.at_work, self.lock = {}, threading.Lock()
        self.is_terminal = sys.stderr.isatty()

    def clear(self):
        if self.is_terminal:
            sys.stderr.write("\r\033[K")

    def show(self):
        """The line of what is at work, which the next one takes the place of."""
        with self.lock:
            if self.is_terminal and self.at_work:
                since = time.monotonic() - self.began
                self.clear()
                sys.stderr.write(f"sqlr: {int(since) // 60}:{int(since) % 60:02} at work: {', '.join(self.at_work)}")
                sys.stderr.flush()

    def ended(self, crate, status, used):
        with self.lock:
            seconds = time.monotonic() - self.at_work.pop(crate.name)
            self.done += not status
            self.clear()
            what = f"{self.done} of {self.count}" if not status else "failed:"
            print(f"sqlr: {what} {crate.name} {seconds:.0f} s ({used:.0f} s of processors)", file=sys.stderr, flush=True)


def build_all(left, kit):
    """Builds crates, each once those below it are there. Gives the first that failed, if one did, and what each took."""
    took = {}
    progress, running, built, all_lanes = Progress(len(left)), {}, set(), lanes()
    idle = all_lanes
    waiting = {it.name: {dep.name for dep in it.below if dep in left} for it in left}
    height = {it.name: sum(it in other.below for other in left) for it in left}
    left = sorted(left, key=lambda it: -height[it.name])
    with concurrent.futures.ThreadPoolExecutor(len(left)) as pool:
        while left or running:
            ready = [it for it in left if waiting[it.name] <= built]
            for at, crate in enumerate(ready[: max(idle, 0)]):
                # A crate gets the processors that no other is ready for, and half of all at least, since the
                # one that others wait for may be the one that had to share.
                jobs = max(all_lanes // 2, idle // (len(ready) - at), 1)
                idle -= jobs
                left.remove(crate)
                progress.at_work[crate.name] = time.monotonic()
                running[pool.submit(build, crate, kit, jobs)] = crate, jobs
            done, _ = concurrent.futures.wait(running, timeout=1, return_when=concurrent.futures.FIRST_COMPLETED)
            for it in done:
                crate, jobs = running.pop(it)
                idle += jobs
                status, used = it.result()
                progress.ended(crate, status, used)
                if status:
                    return crate, took
                built.add(crate.name)
                took[crate.name] = used
            progress.show()
    return None, took


def last_times():
    """The processor seconds of each crate the last time."""
    lines = TIMES.read_text().split("\n") if TIMES.is_file() else []
    return {name: float(seconds) for name, seconds in (line.split() for line in lines if line)}


def minutes(seconds):
    return f"{max(1, round(seconds / 60))} minutes"


def forecast(left):
    """How long a build will take: as long as its processors need, or its longest chain of crates, which none of them shortens."""
    times = last_times()
    longest = {}
    for crate in left:
        longest[crate.name] = times.get(crate.name, 60) + max((longest.get(dep.name, 0) for dep in crate.below), default=0)
    total = sum(times.get(crate.name, 60) for crate in left)
    # A crate's own proofs go on two processors where there are two.
    on = max(total / lanes(), max(longest.values()) / 2)
    return f"about {minutes(on)} on {lanes()} processors, {minutes(total)} of one"


def main():
    words = argparse.ArgumentParser()
    words.add_argument("program")
    words.add_argument("--times", type=pathlib.Path)
    asked = words.parse_args()
    kit, crates = Kit(), crates_below(asked.program)
    left = [it for it in crates if not it.is_built(kit)]
    if left:
        print(f"sqlr: proving and building {len(left)} of {len(crates)} crates: {forecast(left)}", file=sys.stderr, flush=True)
    failed, took = build_all(left, kit) if left else (None, {})
    if failed:
        tail = (failed.room / "log").read_bytes().decode(errors="replace").splitlines()[-30:]
        print(*tail, sep="\n", file=sys.stderr)
        sys.exit(f"sqlr: {failed.name} is not built; what was said in full is in {failed.room / 'log'}")
    program = crates[-1]
    out = program.folder / "out" / program.name
    out.parent.mkdir(exist_ok=True)
    shutil.copyfile(program.room / program.name, out)
    out.chmod(0o755)
    if asked.times:
        times = {name: seconds for name, seconds in {**last_times(), **took}.items() if name in {it.name for it in crates}}
        asked.times.parent.mkdir(exist_ok=True)
        asked.times.write_text("".join(f"{name} {seconds:.0f}\n" for name, seconds in sorted(times.items())))


if __name__ == "__main__":
    main()
