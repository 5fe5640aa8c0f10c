"""The scripts that .ci/costs and .ci/growth count, each a function of its size, and how instructions and memory are
counted.

Instructions are the same in every run, whatever else the machine does, and peak memory nearly so.
"""
import fcntl
import hashlib
import json
import os
import re
import struct
import subprocess
import sys
import termios
import threading
import time

ROOT = os.path.dirname(os.path.dirname(os.path.abspath(__file__)))
PROGRAMS = [os.path.join(ROOT, "crates", name, "out", name) for name in ("couch_replicate", "couch_lines")]


def digest(*parts):
    """32 hexadecimal digits that look like a signature, the same in every run."""
    return hashlib.md5("/".join(map(str, parts)).encode()).hexdigest()


def database(db, number):
    return {"do": "load", "db": db, "uuid": "%032x" % number}


def pair():
    return [database("a", 1), database("b", 2)]


def small(i):
    """The members of a small document, not in the order of their names."""
    return {"type": "order", "n": i, "name": "name of %d" % i, "tags": ["a", "ä"], "at": {"y": i, "x": -i}, "ok": i % 2 == 0}


def made(parent, body):
    """The revision of an edit, with its parent, which is empty if there is none."""
    text = json.dumps(body, sort_keys=True, separators=(",", ":"), ensure_ascii=False)
    generation = int(parent.split("-")[0]) + 1 if parent else 1
    return "%d-%s" % (generation, hashlib.md5((parent + "\nlive\n" + text).encode()).hexdigest())


def load(db, name, revs, /, **body):
    """A load of a document with the signatures of its ancestry, newest first."""
    return {"do": "load", "db": db, "doc": {
        "_id": name, "_rev": "%d-%s" % (len(revs), revs[0]), "_revisions": {"start": len(revs), "ids": revs}, **body}}


def session(source, target, number, **members):
    return {"do": "replicate", "source": source, "target": target, "session": "%032x" % number, "alone": True, **members}


def audit(source, target):
    return {"do": "audit", "source": source, "target": target}


def loads(n):
    """n documents of three revisions and some 110 bytes of body."""
    return [database("a", 1)] + [load("a", "doc-%d" % i, [digest(i, g) for g in (3, 2, 1)], **small(i)) for i in range(n)]


def reads(n):
    """n documents, each printed by `show`, `doc` and together by `changes`."""
    return loads(n) + [{"do": do, "db": "a", "id": "doc-%d" % i} for i in range(n) for do in ("show", "doc")] + [
        {"do": "changes", "db": "a"}]


def edits(n):
    """n documents made by `edit`, and edited once more."""
    first = [{"do": "edit", "db": "a", "id": "doc-%d" % i, "body": small(i)} for i in range(n)]
    again = [{"do": "edit", "db": "a", "id": "doc-%d" % i, "parent": made("", small(i)), "body": {"n": i}} for i in range(n)]
    return [database("a", 1)] + first + again


def bodies(n):
    """n documents of 20 KB."""
    return [database("a", 1)] + [
        load("a", "doc-%d" % i, [digest(i)], items=[small(k) for k in range(200)]) for i in range(n)]


def nested(n, tags=lambda i: ["a", "b"]):
    """A document of n small objects, in one line. Each object has the same tags."""
    items = [{"type": "order", "n": i, "name": "name of %d" % i, "tags": tags(i), "at": {"y": i, "x": -i}, "ok": True}
             for i in range(10 ** 6, 10 ** 6 + n)]
    return [database("a", 1), load("a", "doc", [digest(0)], items=items)]


def nested_varied(n):
    """A document of n small objects, in one line. Objects that follow each other have different tags."""
    return nested(n, lambda i: ["ab"[i % 2], "b"])


def plain(n):
    """n documents with a text of 20 KB, in which nothing needs an escape."""
    return [database("a", 1)] + [load("a", "doc-%d" % i, [digest(i)], text="x" * 20_000) for i in range(n)]


def carried(n):
    """n documents, replicated once by one thread, and an audit."""
    return pair() + loads(n)[1:] + [session("a", "b", 1), audit("a", "b")]


def pooled(n):
    """n documents, replicated once by the pool."""
    by_threads = session("a", "b", 1)
    del by_threads["alone"]
    return pair() + loads(n)[1:] + [by_threads, audit("a", "b")]


def daily(n):
    """n times a new document and a replication."""
    lines = pair()
    for i in range(n):
        lines += [load("a", "doc-%d" % i, [digest(i)], n=i), session("a", "b", i + 1)]
    return lines


def deep(n):
    """One document's chain of n revisions, loaded a hundred at a time and replicated."""
    revs = [digest(g) for g in range(n)]
    loaded = [{"do": "load", "db": "a", "doc": {"_id": "d", "_rev": "%d-%s" % (g + 100, revs[g + 99]), "_revisions": {
        "start": g + 100, "ids": revs[max(0, g - 1):g + 100][::-1]}}} for g in range(0, n, 100)]
    return pair() + loaded + [session("a", "b", 1)]


def wide(n):
    """One document of n leaves, replicated and shown."""
    return pair() + [load("a", "d", [digest(i), "r"], n=i) for i in range(n)] + [
        session("a", "b", 1), {"do": "show", "db": "b", "id": "d"}]


def widening(n):
    """A document that grows to n leaves, and is shown each time."""
    lines = [database("a", 1)]
    for i in range(n):
        lines += [load("a", "d", [digest(i), "r"], n=i), {"do": "doc", "db": "a", "id": "d"}]
    return lines


def resolved(n):
    """A document of n leaves, whose winners are deleted one by one."""
    loaded = [load("a", "d", [digest(i), "r"], n=i) for i in range(n)]
    winners = sorted((digest(i) for i in range(n)), reverse=True)
    return [database("a", 1)] + loaded + [load("a", "d", [digest(sig, "end"), sig, "r"], _deleted=True) for sig in winners]


def recreated(n):
    """A document that is deleted and created again n times."""
    lines, parents = [database("a", 1)], []
    for i in range(2 * n + 1):
        doc = {"_id": "d", "_rev": "%d-%s" % (i + 1, digest(i)), "_deleted": i % 2 == 1,
               "_revisions": {"start": i + 1, "ids": [digest(i)] + parents}, "n": i}
        lines, parents = lines + [{"do": "load", "db": "a", "doc": doc}], [digest(i)]
    return lines


def chosen(n):
    """n replications of one selection of two documents."""
    return pair() + loads(10)[1:] + [session("a", "b", i + 1, doc_ids=["doc-1", "doc-2"]) for i in range(n)]


def scanned(n):
    """A replication for each of n selections of two documents, each over a feed of a thousand."""
    return pair() + loads(1000)[1:] + [session("a", "b", i + 1, doc_ids=["doc-%d" % (2 * i), "doc-%d" % (2 * i + 1)]) for i in range(n)]


def printed_one(n):
    """n documents, of which half are changed, and for each document a `docs` line that selects it."""
    changes = [load("a", "doc-%d" % i, [digest(i, g) for g in (4, 3, 2, 1)], n=i) for i in range(0, n, 2)]
    return loads(n) + changes + [{"do": "docs", "db": "a", "doc_ids": ["doc-%d" % i]} for i in range(n)]


def compared_one(n):
    """n documents in two databases, and for each document a `compare` line that selects it."""
    return compared(n)[:-4] + [{"do": "compare", "source": "a", "target": "b", "doc_ids": ["doc-%d" % i]} for i in range(n)]


def carried_one(n):
    """n documents, each replicated by a session that selects it."""
    return pair() + loads(n)[1:] + [session("a", "b", i + 1, doc_ids=["doc-%d" % i]) for i in range(n)]


def copied(n):
    """Four backups of n documents, of which the last is restored."""
    return loads(n) + [{"do": "backup", "db": "a", "name": "k%d" % k} for k in range(4)] + [
        {"do": "restore", "db": "a", "name": "k3"}]


def backups(n):
    """n backups of one document, each under its own name, of which the last is restored."""
    names = ["backup-%d" % i for i in range(n)]
    return [database("a", 1), load("a", "doc", [digest(0)])] + [{"do": "backup", "db": "a", "name": name} for name in names] + [
        {"do": "restore", "db": "a", "name": names[-1]}]


def logged(n):
    """n sessions of one pair, and the log of the source."""
    return pair() + [session("a", "b", i + 1) for i in range(n)] + [
        {"do": "log", "source": "a", "target": "b", "side": "source"}] * 4


def hub_logs(n):
    """n sources, each replicated once into one target, and the target's log of each pair."""
    lines = [database("hub", n + 1)]
    for i in range(n):
        lines += [database("p%d" % i, i + 1), load("p%d" % i, "doc", [digest(0)]), session("p%d" % i, "hub", i + 1)]
    return lines + [{"do": "log", "source": "p%d" % i, "target": "hub", "side": "target"} for i in range(n)]


def edited(n):
    """A document that is edited and replicated n times. Each time it is sent with its complete ancestry, as the protocol
    requires."""
    lines, parent = pair(), ""
    for i in range(n):
        lines += [{"do": "edit", "db": "a", "id": "d", "body": {"n": i}, **({"parent": parent} if parent else {})},
                  session("a", "b", i + 1)]
        parent = made(parent, {"n": i})
    return lines


def idle(n):
    """n replications of one pair with nothing new, and an audit."""
    return pair() + loads(10)[1:] + [session("a", "b", i + 1) for i in range(n)] + [audit("a", "b")]


def hub(n):
    """Sessions of ten sources, n each, into one target."""
    lines = [database("hub", 99)]
    for k in range(10):
        lines += [database("p%d" % k, k + 1), load("p%d" % k, "doc-%d" % k, [digest(k)])]
    return lines + [session("p%d" % (i % 10), "hub", i + 1) for i in range(10 * n)]


def refused(n):
    """n documents that contradict the target's, each stored in the ledger, which is printed."""
    lines = pair()
    for i in range(n):
        lines += [load("a", "doc-%d" % i, [digest(i, "child"), digest(i), "x"]), load("b", "doc-%d" % i, [digest(i), "y"])]
    return lines + [session("a", "b", 1), {"do": "ledger", "target": "b", "session": "%032x" % 1}]


def asked(n):
    """n documents, of which a tenth is in conflict, and half is in another database: all read-only commands for them."""
    lines = loads(n)
    lines += [load("a", "doc-%d" % i, [digest(i, "other"), digest(i, 2), digest(i, 1)], n=i) for i in range(0, n, 10)]
    lines += [database("b", 2), session("a", "b", 1, doc_ids=["doc-%d" % i for i in range(0, n, 2)])]
    return lines + [{"do": do, "db": "a"} for do in ("conflicts", "info", "docs")] + [
        {"do": "compare", "source": "a", "target": "b"}]


def in_conflict(n):
    """n documents of two leaves each, and all conflicts, four times."""
    return [database("a", 1)] + [load("a", "doc-%d" % i, [digest(i, k), "r"], n=i) for i in range(n) for k in (1, 2)] + [
        {"do": "conflicts", "db": "a"}] * 4


def printed(n):
    """n documents, and all of them, four times."""
    return loads(n) + [{"do": "docs", "db": "a"}] * 4


def compared(n):
    """n documents in two databases, of which every tenth differs, compared four times."""
    lines = pair() + loads(n)[1:]
    lines += [load("b", "doc-%d" % i, [digest(i, g) for g in ((3, 2, 1) if i % 10 else (4, 1))], **small(i)) for i in range(n)]
    return lines + [{"do": "compare", "source": "a", "target": "b"}] * 4


def drawn(n):
    """The output of `show` for n documents of three leaves, for `couch_lines trees`."""
    leaf = "leaf 3-%s live 3-%s,2-%s,1-%s"
    return [text for i in range(n) for text in ['doc "doc-%d" winner 3-%s leaves 3 revs 5' % (i, digest(i, 2))] + [
        leaf % (digest(i, k), digest(i, k), digest(i, "b"), digest(i, "a")) for k in (2, 1, 0)]]


def branched(n):
    """The output of `show` for one document of n leaves of one root, for `couch_lines trees`."""
    return ['doc "doc" winner 2-%s leaves %d revs %d' % (digest(0), n, n + 1)] + [
        "leaf 2-%s live 2-%s,1-%s" % (digest(i), digest(i), digest("a")) for i in range(n)]


def ancestries(n):
    """The output of `show` for n leaves of a document that has one more: each forks off one chain at another depth. Nothing is
    drawn, since a drawing has n * n columns."""
    chain = ["%d-%s" % (g, digest(g)) for g in range(1, n + 1)]
    forks = [["%d-%s" % (g + 1, digest(g, "fork")), *chain[g - 1::-1]] for g in range(n, 0, -1)]
    return ['doc "doc" winner %s leaves %d revs %d' % (forks[0][0], n + 1, 2 * n + 1)] + [
        "leaf %s live %s" % (revs[0], ",".join(revs)) for revs in forks]


def read_in(n):
    """A CouchDB response with n documents, for `couch_lines load`."""
    return ['{"results":['] + [json.dumps({"id": "doc-%d" % i, "docs": [{"ok": load(
        "a", "doc-%d" % i, [digest(i, g) for g in (3, 2, 1)], **small(i))["doc"]}]}) + "," * (i < n - 1) for i in range(n)] + ["]}"]


def written(lines):
    """The text of a script, or of lines that are texts already."""
    return "".join((line if isinstance(line, str) else json.dumps(line, ensure_ascii=False)) + "\n" for line in lines)


def counted(words, lines, name, folder):
    """The instructions of a program on some lines, and the MD5 of its output."""
    script = os.path.join(folder, name)
    with open(script, "w") as file:
        file.write(written(lines))
    with open(script, "rb") as file:
        run = subprocess.run(
            ["valgrind", "--tool=callgrind", "--callgrind-out-file=" + script + ".counts", *words],
            stdin=file, capture_output=True, timeout=300)
    found = re.search(rb"Collected : (\d+)", run.stderr)
    if run.returncode or not found:
        sys.exit("%s: status %d: %s" % (name, run.returncode, run.stderr.decode(errors="replace")[-300:]))
    return int(found[1]), hashlib.md5(run.stdout).hexdigest()


def is_waiting(run):
    """Whether a program has processed the input that it was sent, and waits for more. Then the pipe is empty, and the program
    sleeps in the system call `read` (number 0) of its standard input (0)."""
    if run.poll() is not None:
        sys.exit("%s: ended with status %d before its input" % (" ".join(run.args), run.returncode))
    if struct.unpack("i", fcntl.ioctl(run.stdin, termios.FIONREAD, bytes(4)))[0]:
        return False
    with open("/proc/%d/syscall" % run.pid) as file:
        return file.read().startswith("0 0x0 ")


def kept_at_most(words, lines, name, folder):
    """The peak memory of a program on some lines, in KB, as the system reports it before the run's input ends: when a line
    after them fails, or when couch_lines has processed all of its input.

    A child's `rusage` would include the memory of this script, from which the child was forked.
    """
    is_script = len(words) == 1 or words[1].startswith("--")
    last = "refused %d BadLine\n" % (len(lines) + 1)
    text = written(lines) + ("none\n" if is_script else "")
    with subprocess.Popen(words, stdin=subprocess.PIPE, stdout=subprocess.PIPE, encoding="utf-8") as run:
        writer = threading.Thread(target=lambda: (run.stdin.write(text), run.stdin.flush()))
        writer.start()
        if is_script:
            if not any(answer == last for answer in run.stdout):
                sys.exit("%s: was not answered to its end" % name)
        else:
            reader = threading.Thread(target=lambda: sum(map(len, run.stdout)))
            reader.start()
        writer.join()
        while not is_script and not is_waiting(run):
            time.sleep(0.01)
        with open("/proc/%d/status" % run.pid) as file:
            kept = int(re.search(r"VmHWM:\s*(\d+) kB", file.read())[1])
        run.stdin.close()
        if not is_script:
            reader.join()
        return kept


def named(make, words):
    """The name of a workload, with the arguments of couch_lines if it is one of its."""
    return "-".join([make.__name__, *(word.strip("-") for word in words)])
