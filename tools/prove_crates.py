#!/usr/bin/env python3
"""Proves crates side by side, and says on standard error how far it is.

usage: prove_crates.py [--jobs N] [--logs FOLDER] [--build PROGRAM] [--caller PID] [NAME ..]

Proves the crates NAME and the libraries below them, or all crates where neither a NAME nor a PROGRAM is given: the longest chain
first, N at a time (as many as there are processors and memory, where it is not given). With --build it also builds the program,
which stays as crates/PROGRAM/out/PROGRAM, and prints `minutes PROCESSORS MINUTES`, its time by the clock, where it began from
nothing. What is proved stays in each crate's out/, also where the run is interrupted, and is not proved again. With --logs it goes over every crate, gives each proof one job, and leaves in FOLDER a file NAME.log for each:
what rt said, and as the last line `cpu USER SYS`, its processor seconds. With --caller it ends once that process has ended.

rt lets no second command work in a crate, nor in a library below it, at the same time. So the crates are proved in lanes:
copies of the sources, in which the libraries that are proved are hard links. A crate's out/ goes into the lane for its proof,
and comes back after it.
"""

import contextlib
import fcntl
import functools
import os
import shutil
import signal
import subprocess
import sys
import time
from concurrent.futures import FIRST_COMPLETED, ThreadPoolExecutor, wait

ROOT = os.path.dirname(os.path.dirname(os.path.realpath(__file__)))
PARTS = ("src", "specs", "proofs")
# what a proof takes of memory at most, as far as it was seen
MEMORY = 2_500_000_000


def tell(text):
    print(text, file=sys.stderr, flush=True)


def read_uses(root):
    """Returns the crates of crates.txt, each with those among them that it uses."""
    uses = {}
    with open(f"{root}/crates.txt", encoding="utf-8") as lines:
        for line in lines:
            head, _, tail = line.partition("#")[0].partition(":")
            if head.split():
                uses[head.split()[0]] = tail.replace(",", " ").split()
    return {name: [it for it in used if it in uses] for name, used in uses.items()}


def link_or_copy(one, other):
    """Gives a file of a library a second name: rt removes such a file before it makes it anew, and never writes into it."""
    try:
        os.link(one, other)
    except OSError:
        shutil.copy2(one, other)


class Crates:
    """The crates of this clone, as crates.txt lists them."""

    def __init__(self, root):
        self.root, self.uses = root, read_uses(root)

    def folder(self, name):
        return f"{self.root}/crates/{name}"

    def is_program(self, name):
        return os.path.exists(f"{self.folder(name)}/src/main.rt")

    @functools.lru_cache(maxsize=None)
    def below(self, name):
        """Returns the libraries below a crate."""
        return frozenset(self.uses[name]).union(*map(self.below, self.uses[name]))

    def files(self, name):
        for part in PARTS:
            for at, _, names in os.walk(f"{self.folder(name)}/{part}"):
                yield at
                yield from (f"{at}/{it}" for it in names)

    @functools.lru_cache(maxsize=None)
    def changed(self, name):
        """Returns when the last of the crate's files was changed."""
        return max((os.stat(it).st_ctime_ns for it in self.files(name)), default=0)

    def is_proved(self, name):
        """Returns whether an earlier run proved the library, and no file of it or of those below has changed since."""
        try:
            proved = os.stat(f"{self.folder(name)}/out/rlib/stamp").st_mtime_ns
        except OSError:
            return False
        changed = [*map(self.changed, [name, *self.below(name)]), os.stat(f"{self.root}/crates.txt").st_ctime_ns]
        return max(changed) < proved

    @functools.lru_cache(maxsize=None)
    def lines(self, name):
        """Returns the lines of the crate's code, which its proof time goes with as nearly as with any other count."""
        found = 0
        for file in self.files(name):
            if file.endswith(".rt"):
                with open(file, "rb") as it:
                    found += it.read().count(b"\n")
        return found


class Lane:
    """A copy of the sources in which one crate at a time is proved."""

    def __init__(self, crates, names, folder):
        self.crates, self.folder, self.has, self.running, self.ends = crates, folder, set(), None, False
        os.makedirs(folder)
        for file in ("crates.txt", "HANDLES"):
            shutil.copyfile(f"{crates.root}/{file}", f"{folder}/{file}")
        for name in crates.uses:
            # (rt wants a folder src/ of each crate that crates.txt lists)
            os.makedirs(f"{folder}/crates/{name}/src")
        for name in names:
            for part in filter(lambda it: os.path.isdir(f"{crates.folder(name)}/{it}"), PARTS):
                shutil.copytree(f"{crates.folder(name)}/{part}", f"{folder}/crates/{name}/{part}", dirs_exist_ok=True)

    def take(self, name):
        """Gives the lane the libraries below a crate, and the crate's own out/."""
        for below in sorted(self.crates.below(name) - self.has):
            part = f"crates/{below}/out/rlib"
            shutil.copytree(f"{self.crates.root}/{part}", f"{self.folder}/{part}", copy_function=link_or_copy)
            self.has.add(below)
        out = f"{self.folder}/crates/{name}/out"
        if os.path.isdir(f"{self.crates.folder(name)}/out"):
            os.rename(f"{self.crates.folder(name)}/out", out)
        os.makedirs(out, exist_ok=True)
        return out

    def prove(self, name, words):
        """Runs rt with these words in the crate, and returns its status. out/proof.log has what it said, and its processor seconds."""
        out = self.take(name)
        try:
            with open(f"{out}/proof.log", "wb") as said:
                how = {"stdin": subprocess.DEVNULL, "stdout": said, "stderr": said}
                self.running = subprocess.Popen(["rt", *words], cwd=f"{self.folder}/crates/{name}", **how)
                if self.ends:
                    self.end()
                # (poll() and wait() don't tell the processor time)
                _, status, used = os.wait4(self.running.pid, 0)
                self.running.returncode = os.WEXITSTATUS(status) if os.WIFEXITED(status) else -os.WTERMSIG(status)
                said.write(f"cpu {used.ru_utime:.3f} {used.ru_stime:.3f}\n".encode())
            return self.running.returncode
        finally:
            os.rename(out, f"{self.crates.folder(name)}/out")

    def end(self):
        """Ends the proof that runs, and each that begins later."""
        self.ends = True
        with contextlib.suppress(OSError):
            if self.running and self.running.returncode is None:
                os.kill(self.running.pid, signal.SIGTERM)


class Interrupted(Exception):
    pass


def interrupt(*_):
    raise Interrupted


def lanes_folder(crates):
    """Returns the folder of the lanes, on the disk of the clone: in .git, where no command of rt looks for sources."""
    return f"{crates.root}/{'.git' if os.path.isdir(f'{crates.root}/.git') else 'release'}/lanes"


def recover(crates, at):
    """Takes back from the lanes of a run that was killed what it had of the crates' out/, and removes the lanes."""
    for lane in sorted(os.listdir(at)) if os.path.isdir(at) else []:
        for name in crates.uses:
            own, out = f"{crates.folder(name)}/out", f"{at}/{lane}/crates/{name}/out"
            # (a library that was only linked has no log)
            if os.path.exists(f"{out}/proof.log") and not os.path.lexists(own):
                os.rename(out, own)
    shutil.rmtree(at, ignore_errors=True)


def lock(crates, names):
    """Waits until no other command of rt, and no other run of this script, works in these crates, and keeps them out."""
    held = [os.open(crates.folder(it), os.O_RDONLY) for it in sorted(names)]
    for it in held:
        try:
            fcntl.flock(it, fcntl.LOCK_EX | fcntl.LOCK_NB)
        except BlockingIOError:
            tell("waiting for another proof in this clone to end ..")
            fcntl.flock(it, fcntl.LOCK_EX)
    return held


def lanes_that_fit():
    """Returns how many proofs fit on the machine side by side."""
    with open("/proc/meminfo", encoding="utf-8") as lines:
        free = next((1024 * int(it.split()[1]) for it in lines if it.startswith("MemAvailable:")), MEMORY)
    return max(1, min(len(os.sched_getaffinity(0)), free // MEMORY))


class Run:
    """One run over crates: which are proved, which are being proved, and since when."""

    def __init__(self, crates, todo, processors, program, logs, caller):
        self.crates, self.todo, self.processors, self.program, self.logs, self.caller = crates, todo, processors, program, logs, caller
        self.started, self.last = time.monotonic(), None
        self.proved = set() if logs else {it for it in todo if not crates.is_program(it) and crates.is_proved(it)}
        self.found, self.left, self.running = {*self.proved}, todo - self.proved, {}
        above = {name: [it for it in todo if name in crates.uses[it]] for name in todo}
        self.chain = functools.lru_cache(None)(lambda name: crates.lines(name) + max(map(self.chain, above[name]), default=0))

    def words(self, name, jobs):
        if name == self.program:
            # (it runs what it built, here without words)
            return ["run"]
        return ["check" if self.crates.is_program(name) else "lib", "--jobs", str(jobs)]

    def begin(self, pool, lanes):
        """Begins proofs in the lanes that are free. Where fewer crates are ready than processors are idle, a proof gets several of them."""
        busy = [lane for lane, _, _ in self.running.values()]
        free, idle = [it for it in lanes if it not in busy], self.processors - sum(jobs for _, _, jobs in self.running.values())
        ready = [it for it in self.left if self.crates.below(it) <= self.proved]
        ready = sorted(ready, key=self.chain, reverse=True)[: min(idle, len(free))]
        for number, (lane, name) in enumerate(zip(free, ready)):
            # (a measured proof has one job)
            jobs = 1 if self.logs else min(4, idle // (len(ready) - number))
            idle -= jobs
            self.left.discard(name)
            self.running[pool.submit(lane.prove, name, self.words(name, jobs))] = lane, name, jobs
            self.tell()

    def tell(self):
        """Says how far it is: on a terminal in one line, elsewhere in a new line for each crate that is begun."""
        names = [name for _, name, _ in self.running.values()]
        begun, minutes = len(self.todo) - len(self.left), int(time.monotonic() - self.started) // 60
        line = f"proving {begun} of {len(self.todo)} crates: {' '.join(names)} .. {minutes} min"
        if sys.stderr.isatty():
            print(f"\r\033[K{line[: shutil.get_terminal_size().columns - 1]}", end="", file=sys.stderr, flush=True)
        elif begun != self.last:
            tell(line)
        self.last = begun

    def is_well(self, name, status):
        """Returns whether rt did what it was to do, and keeps its log where logs are wanted."""
        log = f"{self.crates.folder(name)}/out/proof.log"
        if self.logs:
            shutil.copyfile(log, f"{self.logs}/{name}.log")
        if name != self.program:
            return status == 0
        with open(log, encoding="utf-8", errors="replace") as lines:
            return any(it.startswith("rt: running out/") for it in lines)

    def minutes(self):
        """Returns how long the run took, if it proved all its crates from nothing."""
        for name in self.todo - self.found:
            with open(f"{self.crates.folder(name)}/out/proof.log", encoding="utf-8", errors="replace") as it:
                if self.found or any(line.startswith(f"rt: {name}: begins with what a check kept") for line in it):
                    return None
        return f"minutes {self.processors} {(time.monotonic() - self.started) / 60:.0f}"

    def over(self, lanes):
        """Proves all in these lanes, and returns the first crate that could not be proved, if there is one."""
        with ThreadPoolExecutor(self.processors) as pool:
            try:
                while self.left or self.running:
                    self.begin(pool, lanes)
                    done, _ = wait(self.running, timeout=1, return_when=FIRST_COMPLETED)
                    if self.caller and not os.path.exists(f"/proc/{self.caller}"):
                        raise Interrupted
                    for it in done:
                        _, name, _ = self.running.pop(it)
                        if not self.is_well(name, it.result()):
                            return name
                        self.proved.add(name)
                    if sys.stderr.isatty() and self.running:
                        self.tell()
                return None
            finally:
                for lane in lanes:
                    lane.end()


def main(words):
    processors, logs, program, caller = lanes_that_fit(), None, None, None
    while words and words[0].startswith("--"):
        flag, value, *words = words
        if flag == "--jobs":
            processors = max(1, int(value))
        elif flag == "--logs":
            logs = os.path.realpath(value)
        elif flag == "--build":
            program = value
        elif flag == "--caller":
            caller = int(value)
        else:
            sys.exit(__doc__)
    crates = Crates(ROOT)
    names = {*words, *[program] * (program is not None)} or {*crates.uses}
    todo = names.union(*map(crates.below, names))
    for it in (signal.SIGINT, signal.SIGTERM, signal.SIGHUP):
        if signal.getsignal(it) != signal.SIG_IGN:
            signal.signal(it, interrupt)
    at = lanes_folder(crates)
    held = lock(crates, todo)
    try:
        recover(crates, at)
        run = Run(crates, {*todo}, processors, program, logs, caller)
        failed = run.over([Lane(crates, todo, f"{at}/{it}") for it in range(min(processors, len(run.left)))])
    except Interrupted:
        tell("\ninterrupted: what is proved stays, and the next run goes on from there")
        return 130
    finally:
        recover(crates, at)
        for it in held:
            os.close(it)
    if sys.stderr.isatty():
        tell("")
    if program and not failed and run.minutes():
        print(run.minutes())
    if failed:
        tell(f"{failed} is not proved: crates/{failed}/out/proof.log says why")
    return 1 if failed else 0


if __name__ == "__main__":
    sys.exit(main(sys.argv[1:]))
