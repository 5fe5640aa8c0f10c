"""Runs jobs against a test server (.ci/stand-in) in this process, for .ci/jobs and .ci/losses: the databases on both sides are
inspected directly, and journals are read by rules of this file's own."""
import concurrent.futures
import importlib.machinery
import importlib.util
import os
import pathlib
import shutil
import subprocess
import sys
import tempfile
import threading

TOP = pathlib.Path(__file__).resolve().parent.parent
sys.dont_write_bytecode = True
LOADER = importlib.machinery.SourceFileLoader("stand_in", str(TOP / ".ci/stand-in"))
stand_in = importlib.util.module_from_spec(importlib.util.spec_from_loader("stand_in", LOADER))
LOADER.exec_module(stand_in)

SHELLS = [found for found in map(shutil.which, ["dash", "bash", "busybox", "ksh", "zsh"]) if found]
SECRET = "s3cret"
LIMIT = 900     # the seconds after which a job is taken to hang; each takes less than 10 on a quiet machine
work = pathlib.Path(tempfile.mkdtemp())
server = stand_in.Server()
pool = concurrent.futures.ThreadPoolExecutor(max(2, os.cpu_count() or 2))
checks = []


def check(holds, text):
    checks.append(bool(holds))
    if not holds:
        print(text, flush=True)
    return holds


def finish():
    """Ends the tests: the status is 0 only if no check failed."""
    shutil.rmtree(work)
    check(not server.errors, f"the test server failed: {server.errors}")
    print(f"{len(checks)} checks under {', '.join(pathlib.Path(shell).name for shell in SHELLS)}, {checks.count(False)} failed")
    sys.exit(not all(checks))


def surroundings(batch=50, waits="", path=None, **more):
    """The environment of a job."""
    made = {**os.environ, "BATCH": str(batch), "WAITS": waits, "TMPDIR": str(work), "LC_ALL": "C.UTF-8", **more}
    if path:
        made["PATH"] = f"{path}:{made['PATH']}"
    return made


def run(job, *words, shell=None, limit=None, **options):
    """A job's status, what it prints, and what it tells. The limit is words of the shell's `ulimit`."""
    front = [shell, *(["sh"] if shell and shell.endswith("busybox") else ["--emulate", "sh"] if shell and shell.endswith("zsh") else [])]
    limited = ["sh", "-c", f"trap '' XFSZ; ulimit {limit}; exec \"$@\"", "sh"] if limit else []
    ran = subprocess.run([*limited, *(front if shell else []), TOP / "jobs" / job, *map(str, words)], capture_output=True,
                         env=surroundings(**options), stdin=subprocess.DEVNULL, timeout=LIMIT)
    told = ran.stderr.decode()
    check(SECRET not in told + ran.stdout.decode(), f"{job} told the credentials: {told}")
    return ran.returncode, ran.stdout.decode(), told


def ends(due, job, *words, says="", **options):
    """Runs a job that ends with the status `due` and tells `says`: what it prints."""
    status, printed, told = run(job, *words, **options)
    check(status == due, f"{job} {' '.join(map(str, words))} ended with {status} in place of {due}: {told}")
    check(says in told, f"{job} {' '.join(map(str, words))} told {told!r}, and not {says!r}")
    return printed


def database(name, filled=None):
    """A new database of the test server, a copy of one that is filled: its address."""
    db = server.databases[name] = stand_in.Database()
    if filled:
        copy_into(db, filled.account())
    return f"{server.address}/{name}"


def copy_into(db, account):
    for (document, _), (revs, deleted, body) in account.items():
        db.put(document, revs, deleted, stand_in.parsed(body))


def held(name):
    return server.databases[name].account()


def lines_of(text):
    return text.split("\n")[:-1]


def leaves_of(path):
    """The lines of a journal that have documents."""
    return [line for line in lines_of(path.read_text()) if line.startswith("{")]


def journal(path):
    """The databases' account of what a journal says is there: of each document the leaves of its last state, or all, if it has no state."""
    db, states, shown = stand_in.Database(), {}, {}
    try:
        for line in lines_of(path.read_text()):
            if line.startswith("state "):
                name, *revs = stand_in.parsed(line.split(" ", 2)[2])
                states[name] = revs
            elif not line.startswith(("sum ", "lacks ")):
                one = stand_in.parsed(line)["doc"]
                one.update(stand_in.parsed("{%s}" % one.pop("whole", "")))
                shown[one["_id"], one["_rev"]] = one
    except ValueError:
        check(False, f"{path.name} has a line that isn't whole")
    db.bulk_docs({"new_edits": False, "docs": [one for (name, rev), one in shown.items() if rev in states.get(name, [rev])]})
    check(path.read_bytes()[-1:] in (b"", b"\n"), f"{path.name} ends within a line")
    return db.account()


def named(word, pairs):
    return sorted(f"{word} {stand_in.spelled(name)} {rev}" for name, rev in pairs)


class Writer:
    """Edits a database of the test server COUNT times a second, from its beginning to its end."""

    def __init__(self, name, count):
        self.name, self.pause, self.stopped = name, 1 / count, threading.Event()
        self.thread = threading.Thread(target=self.edit)

    def edit(self):
        number = 0
        while not self.stopped.wait(self.pause):
            with server.lock:
                number += 1
                server.databases[self.name].edit(f"written{number}", None, False, {})

    def __enter__(self):
        self.thread.start()

    def __exit__(self, *_):
        self.stopped.set()
        self.thread.join()


shop = stand_in.Database()
stand_in.fill(shop, 160, 66)
few = stand_in.Database()
stand_in.fill(few, 12, 71)
