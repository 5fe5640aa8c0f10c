"""The databases of the test server (.ci/stand-in): revision trees, merged by CouchDB's rules, changes feeds, and what CouchDB
returns for requests to a database. It shares no code with the product."""
import base64
import collections
import hashlib
import json
import random
import re
import zlib


class Written(str):
    """A JSON number, kept as its own text, so that no number is rounded."""


def parsed(text):
    return json.loads(text, parse_int=Written, parse_float=Written)


def spelled(value, blank="", ascii=False):
    """Returns a value as JSON text. `blank` is written around commas and colons; `ascii` escapes all other characters."""
    if isinstance(value, Written):
        return str(value)
    if isinstance(value, dict):
        members = (spelled(name, blank, ascii) + blank + ":" + blank + spelled(item, blank, ascii) for name, item in value.items())
        return "{%s}" % (blank + "," + blank).join(members)
    if isinstance(value, list):
        return "[%s]" % (blank + "," + blank).join(spelled(item, blank, ascii) for item in value)
    return json.dumps(value, ensure_ascii=ascii)


def order(rev):
    """Returns the key by which revisions are sorted: the generation, then the rest as text."""
    generation, sig = rev.split("-", 1)
    return int(generation), sig


class Failure(Exception):
    """An error response of CouchDB: status, error and reason."""


NO_DATABASE = Failure(404, "not_found", "Database does not exist.")
CONFLICT = Failure(409, "conflict", "Document update conflict.")
FILE_FIELDS = ("content_type", "revpos", "data")


class Document:
    """A revision tree: the parent of each revision (None if the revision is a root, or its parent is unknown), and contents."""

    def __init__(self):
        self.parents = {}
        self.contents = {}

    def copy(self):
        made = Document()
        made.parents, made.contents = dict(self.parents), dict(self.contents)
        return made

    def leaves(self):
        """Returns the leaves, the winner first: a leaf that is not deleted, then the greatest."""
        inner = set(self.parents.values())
        return sorted((rev for rev in self.parents if rev not in inner),
                      key=lambda rev: (not self.contents[rev][0], order(rev)), reverse=True)

    def ancestry(self, rev):
        revs = [rev]
        while self.parents[revs[-1]] is not None:
            revs.append(self.parents[revs[-1]])
        return revs

    def merge(self, revs, deleted, body, limit):
        """Adds a revision with its ancestry, newest first. Returns whether anything changed."""
        changed = revs[0] not in self.contents
        for rev, parent in zip(revs, [*revs[1:], None]):
            if rev not in self.parents or self.parents[rev] is None and parent is not None:
                self.parents[rev] = parent
                changed = True
        self.contents.setdefault(revs[0], (deleted, body))
        if len(self.parents) > limit:
            self.keep([self.ancestry(leaf)[:limit] for leaf in self.leaves()])
        return changed

    def keep(self, branches):
        """Drops each revision that is in none of the branches: stemming, or a purge."""
        kept = {rev for branch in branches for rev in branch}
        self.parents = {rev: parent if parent in kept else None for rev, parent in self.parents.items() if rev in kept}
        self.contents = {rev: content for rev, content in self.contents.items() if rev in kept}

    def below(self, rev):
        """Returns the leaves that descend from a revision, or are that revision."""
        return [leaf for leaf in self.leaves() if rev in self.ancestry(leaf)]


# A copy of a database's files. The fields are those of `Database`.
Copy = collections.namedtuple("Copy", ["documents", "changed", "purged", "sequence", "locals"])
NO_FILES = Copy({}, {}, {}, 0, {})


class Database:
    def __init__(self):
        self.documents = {}
        self.changed = {}       # the sequence of each document's latest change, in order of the sequences
        self.purged = {}        # the sequence at which each document was removed by a purge
        self.sequence = 0
        self.given = {"0": 0}   # each text of a sequence that the server has returned
        self.locals = {}        # the _local documents
        self.security = {}      # the _security object
        self.shards = 1         # a sequence is a number if there is one shard, otherwise a number for each
        self.offset = 0         # what the replicas that answer subtract from the number of a sequence
        self.form = {}          # how responses are written: options of `spelled`
        self.instance = "0"     # when the database was created, as CouchDB 3.4 says; older versions say 0
        self.names_pending = True           # whether _changes says how many rows follow a page (CouchDB 1 does not)
        self.compares_local_rev = False     # whether a PUT to _local needs the current _rev (PouchDB: yes, CouchDB: no)
        self.revs_limit = 1000
        self.body_limit = None  # the number of bytes of a _bulk_docs request above which the server returns 413
        self.filters = {}       # functions (shown document, query) -> bool, by names such as "design/name"
        self.forbidden = set()  # ids that a validation function refuses
        self.lost = set()       # leaves whose contents cannot be read any more
        self.lies = set()       # ids that _bulk_docs reports as stored, but does not store
        self.failing = set()    # ids that _bulk_docs does not store, with an error that is no refusal
        self.meanwhile = None   # a function that is called once, before the next _bulk_get

    def copy(self):
        """Returns what a copy of the database's files would hold."""
        return Copy({name: document.copy() for name, document in self.documents.items()}, dict(self.changed), dict(self.purged),
                    self.sequence, dict(self.locals))

    def set_back(self, copy):
        """Replaces the files by a copy."""
        self.documents = {name: document.copy() for name, document in copy.documents.items()}
        self.changed, self.purged, self.sequence, self.locals = dict(copy.changed), dict(copy.purged), copy.sequence, dict(copy.locals)

    def spelled_sequence(self, number):
        """Returns a sequence as CouchDB 3 writes it: the sum of the shards' numbers, and an opaque rest that differs each time."""
        rest = base64.urlsafe_b64encode(random.randbytes(150)).decode()
        text = "%d-g1AAAA%s" % ((number if isinstance(number, int) else sum(number)) - self.offset, rest)
        self.given[text] = number
        return text

    def shard(self, name):
        return zlib.crc32(name.encode(errors="surrogatepass")) % self.shards

    def position(self):
        """Returns the update sequence: a number, or a number for each shard. A purge increases it, too."""
        if self.shards == 1:
            return self.sequence
        numbers = [*self.changed.items(), *self.purged.items()]
        return tuple(max([0, *(number for name, number in numbers if self.shard(name) == shard)]) for shard in range(self.shards))

    def touch(self, name):
        self.sequence += 1
        self.changed.pop(name, None)
        (self.changed if name in self.documents else self.purged)[name] = self.sequence

    def put(self, name, revs, deleted, body):
        if self.documents.setdefault(name, Document()).merge(revs, deleted, body, self.revs_limit):
            self.touch(name)

    def edit(self, name, parent, deleted, body):
        """Makes a revision as CouchDB does for an edit, as a child of `parent`. Returns the revision."""
        digest = hashlib.md5(spelled([parent, deleted, body]).encode()).hexdigest()
        rev = "%d-%s" % (order(parent)[0] + 1 if parent else 1, digest)
        self.put(name, [rev, *(self.documents[name].ancestry(parent) if parent else [])], deleted, body)
        return rev

    def purge(self, name, rev):
        """Removes a leaf, and the ancestors that no other leaf has. Returns whether there was such a leaf."""
        document = self.documents.get(name)
        if document is None or rev not in document.leaves():
            return False
        document.keep([document.ancestry(leaf) for leaf in document.leaves() if leaf != rev])
        if not document.parents:
            del self.documents[name]
        self.touch(name)
        return True

    def rows(self, since=0):
        """Returns the sequence and the id of each change after a sequence. The order of two shards' changes is random."""
        rows = []
        for name in reversed(self.changed):
            if self.shards == 1 and self.changed[name] <= since:
                break
            if self.shards == 1:
                rows.append((self.changed[name], name))
        if self.shards == 1:
            return rows[::-1]
        reached = list(since) if since else [0] * self.shards
        queues = [[name for name, number in self.changed.items() if self.shard(name) == shard and number > reached[shard]][::-1]
                  for shard in range(self.shards)]
        while any(queues):
            shard = random.choice([shard for shard in range(self.shards) if queues[shard]])
            name = queues[shard].pop()
            reached[shard] = self.changed[name]
            rows.append((tuple(reached), name))
        return rows

    def shown(self, name, rev, asked):
        """Returns the document at a revision, its members in CouchDB's order."""
        document = self.documents[name]
        deleted, body = document.contents[rev]
        files = {}
        for file, entry in body.get("_attachments", {}).items():
            data = base64.b64decode(entry["data"])
            files[file] = {key: item for key, item in entry.items() if key != "data"}
            files[file]["digest"] = "md5-" + base64.b64encode(hashlib.md5(data).digest()).decode()
            files[file].update({"data": entry["data"]} if asked.get("attachments") == "true" else {"length": len(data), "stub": True})
        revs = document.ancestry(rev)
        made = {"_id": name, "_rev": rev, **{key: item for key, item in body.items() if key != "_attachments"}}
        if deleted:
            made["_deleted"] = True
        if asked.get("revs") == "true":
            made["_revisions"] = {"start": order(rev)[0], "ids": [it.split("-", 1)[1] for it in revs]}
        if asked.get("conflicts") == "true":
            others = [leaf for leaf in document.leaves() if leaf != rev and not document.contents[leaf][0]]
            made.update({"_conflicts": others} if others else {})
        if asked.get("revs_info") == "true":
            made["_revs_info"] = [{"rev": it, "status": "available" if it == rev else "missing"} for it in revs]
        if files:
            made["_attachments"] = files
        return made

    def account(self):
        """Returns all leaves with their ancestry, deletion and body. Two databases that hold the same have the same account."""
        return {(name, leaf): (document.ancestry(leaf), document.contents[leaf][0],
                               spelled(dict(sorted(document.contents[leaf][1].items()))))
                for name, document in self.documents.items() for leaf in document.leaves()}

    # ---- requests to a database

    def information(self, name):
        deleted = sum(document.contents[document.leaves()[0]][0] for document in self.documents.values())
        return {"db_name": name, "doc_count": len(self.documents) - deleted, "doc_del_count": deleted,
                "instance_start_time": self.instance, "update_seq": self.spelled_sequence(self.position()), "purge_seq": "0",
                "compact_running": False, "cluster": {"q": self.shards, "n": 1, "w": 1, "r": 1}}

    def since(self, asked):
        text = asked.get("since", "0")
        if text == "now":
            return self.position()
        if text not in self.given:
            raise Failure(400, "bad_request", "Malformed sequence supplied in 'since' parameter.")
        return self.given[text]

    def selected(self, asked, body):
        """Returns the rows after `since` that the request's filter selects."""
        rows, kind = self.rows(self.since(asked)), asked.get("filter")
        if kind == "_doc_ids":
            ids = set(body["doc_ids"] if "doc_ids" in body else parsed(asked["doc_ids"]))
            return [row for row in rows if row[1] in ids]
        if kind == "_design":
            return [row for row in rows if row[1].startswith("_design/")]
        if kind == "_selector":
            return [row for row in rows if matches(body["selector"], self.shown(row[1], self.documents[row[1]].leaves()[0], {}))]
        if kind and kind not in self.filters:
            raise Failure(404, "not_found", "missing json key: filters")
        return [row for row in rows
                if not kind or self.filters[kind](self.shown(row[1], self.documents[row[1]].leaves()[0], {}), asked)]

    def changes(self, asked, body):
        rows = self.selected(asked, body)
        if asked.get("descending") == "true":
            rows = rows[::-1]
        page = rows[:max(1, int(asked.get("limit", len(rows))))]
        interval = int(asked.get("seq_interval", 1))
        lines = []
        for place, (number, name) in enumerate(page, 1):
            document = self.documents[name]
            leaves = document.leaves()
            row = {"seq": self.spelled_sequence(number) if place % interval == 0 or place == len(page) else None, "id": name,
                   "changes": [{"rev": rev} for rev in (leaves if asked.get("style") == "all_docs" else leaves[:1])]}
            if document.contents[leaves[0]][0]:
                row["deleted"] = True
            if asked.get("include_docs") == "true":
                row["doc"] = self.shown(name, leaves[0], asked)
            lines.append(spelled(row, **self.form))
        last = self.spelled_sequence(page[-1][0] if len(page) < len(rows) else self.position())
        pending = ',"pending":%d' % (len(rows) - len(page)) if self.names_pending else ""
        return '{"results":[\n%s\n],\n"last_seq":"%s"%s}\n' % (",\n".join(lines), last, pending)

    def bulk_get(self, asked, body):
        """As after a compaction: only leaves have contents."""
        if self.meanwhile:
            self.meanwhile()
            self.meanwhile = None
        results = []
        for one in body["docs"]:
            name, document = one["id"], self.documents.get(one["id"])
            rev = one.get("rev", document.leaves()[0] if document else "undefined")
            found = [rev] if document and rev in document.leaves() else []
            if document and asked.get("latest") == "true" and rev in document.parents:
                found = document.below(rev)
            found = [it for it in found if (name, it) not in self.lost]
            missing = {"error": {"id": name, "rev": rev, "error": "not_found", "reason": "missing"}}
            results.append({"id": name, "docs": [{"ok": self.shown(name, it, asked)} for it in found] or [missing]})
        return {"results": results}

    def revs_diff(self, body):
        answer = {}
        for name, revs in body.items():
            known = self.documents[name].parents if name in self.documents else {}
            missing = [rev for rev in revs if rev not in known]
            if missing:
                answer[name] = {"missing": missing}
                older = [rev for rev in (self.documents[name].leaves() if known else []) if order(rev) < order(max(missing, key=order))]
                if older:
                    answer[name]["possible_ancestors"] = older
        return answer

    def stored_body(self, name, parent, members):
        """Returns a document's stored body: attachments with their data, without what the server computes."""
        unknown = [key for key in members if key.startswith("_") and key != "_attachments"]
        if unknown:
            raise Failure(400, "doc_validation", "Bad special document member: " + unknown[0])
        if not members.get("_attachments"):
            return {key: item for key, item in members.items() if key != "_attachments"}
        before = self.documents[name].contents[parent][1].get("_attachments", {}) if parent else {}
        files = {}
        for file, entry in members["_attachments"].items():
            if entry.get("stub"):
                if file not in before:
                    raise Failure(412, "missing_stub", "Invalid attachment stub in %s for %s" % (name, file))
                entry = before[file]
            revpos = Written(order(parent)[0] + 1 if parent else 1)
            files[file] = {key: {"revpos": revpos, "content_type": "application/octet-stream", **entry}[key]
                           for key in FILE_FIELDS}
        return {**members, "_attachments": files}

    def write(self, shown, parent):
        """Stores an edit as a child of `parent`, or of a deleted winner. Returns CouchDB's response."""
        name = shown["_id"]
        if name in self.forbidden:
            raise Failure(403, "forbidden", "not here")
        document = self.documents.get(name)
        if parent is not None and not re.fullmatch("[0-9]+-.+", parent):
            raise Failure(400, "bad_request", "Invalid rev format")
        if parent is None and document is not None and document.contents[document.leaves()[0]][0]:
            parent = document.leaves()[0]
        elif (parent is None) != (document is None) or document is not None and parent not in document.leaves():
            raise CONFLICT
        deleted = shown.get("_deleted", False)
        body = self.stored_body(name, parent, {key: item for key, item in shown.items() if key not in ENVELOPE})
        return {"ok": True, "id": name, "rev": self.edit(name, parent, deleted, body)}

    def bulk_docs(self, body):
        if body.get("new_edits", True):
            answer = []
            for shown in body["docs"]:
                shown = {"_id": new_uuid(), **shown}
                try:
                    answer.append(self.write(shown, shown.get("_rev")))
                except Failure as failure:
                    answer.append({"id": shown["_id"], "error": failure.args[1], "reason": failure.args[2]})
            return answer
        answer = []
        for shown in body["docs"]:
            name = shown["_id"]
            content = self.stored_body(name, None, {key: item for key, item in shown.items() if key not in ENVELOPE})
            if name in self.forbidden:
                answer.append({"id": name, "rev": shown.get("_rev"), "error": "forbidden", "reason": "not here"})
            elif name in self.failing:
                answer.append({"id": name, "rev": shown.get("_rev"), "error": "internal_server_error", "reason": "timeout"})
            elif name not in self.lies:
                history = shown.get("_revisions") or dict(zip(("start", "ids"), shown["_rev"].split("-", 1)))
                ids = history["ids"] if isinstance(history["ids"], list) else [history["ids"]]
                revs = ["%d-%s" % (int(history["start"]) - place, sig) for place, sig in enumerate(ids)]
                self.put(name, revs, shown.get("_deleted", False), content)
        return answer

    def all_docs(self, asked, body):
        rows, keys = [], body.get("keys")
        bounds = {key: parsed(asked[key]) for key in ("startkey", "endkey", "key") if key in asked}
        names = sorted(self.documents) if keys is None else keys
        if asked.get("descending") == "true":
            names = names[::-1]
            bounds = {{"startkey": "endkey", "endkey": "startkey"}.get(key, key): item for key, item in bounds.items()}
        for name in names:
            if name not in self.documents:
                rows.append({"key": name, "error": "not_found"})
                continue
            winner = self.documents[name].leaves()[0]
            deleted = self.documents[name].contents[winner][0]
            inside = bounds.get("startkey", name) <= name <= bounds.get("endkey", name) and bounds.get("key", name) == name
            if keys is None and (deleted or not inside):
                continue
            row = {"id": name, "key": name, "value": {"rev": winner, **({"deleted": True} if deleted else {})}}
            if asked.get("include_docs") == "true":
                row["doc"] = None if deleted else self.shown(name, winner, asked)
            rows.append(row)
        skip = int(asked.get("skip", 0))
        return {"total_rows": int(self.information("")["doc_count"]), "offset": skip,
                "rows": rows[skip:skip + int(asked.get("limit", len(rows)))]}

    def leaf(self, name, asked):
        """Returns the revision that a GET of a document or an attachment is about."""
        if name not in self.documents:
            raise Failure(404, "not_found", "missing")
        document = self.documents[name]
        rev = asked.get("rev", document.leaves()[0])
        if rev not in document.contents:
            raise Failure(404, "not_found", "missing")
        if "rev" not in asked and document.contents[rev][0]:
            raise Failure(404, "not_found", "deleted")
        return rev

    def one(self, name, asked):
        if name in self.documents and "open_revs" in asked:
            leaves = self.documents[name].leaves()
            revs = leaves if asked["open_revs"] == "all" else parsed(asked["open_revs"])
            return [{"ok": self.shown(name, rev, asked)} if rev in leaves else {"missing": rev} for rev in revs]
        return self.shown(name, self.leaf(name, asked), asked)

    def put_local(self, name, body):
        before = self.locals.get(name, {}).get("_rev")
        given = body.get("_rev", before if not self.compares_local_rev else None)
        if self.compares_local_rev and before != given:
            raise CONFLICT
        rev = "0-%d" % ((int(given.split("-")[1]) if given else 0) + 1)
        self.locals[name] = {"_id": name, "_rev": rev, **{key: item for key, item in body.items() if key not in ("_id", "_rev")}}
        return {"ok": True, "id": name, "rev": rev}


ENVELOPE = ("_id", "_rev", "_revisions", "_deleted", "_conflicts", "_revs_info", "_local_seq")
COMPARISONS = {"$eq": lambda a, b: a == b, "$ne": lambda a, b: a != b, "$gt": lambda a, b: a is not None and a > b,
               "$gte": lambda a, b: a is not None and a >= b, "$lt": lambda a, b: a is not None and a < b,
               "$lte": lambda a, b: a is not None and a <= b, "$in": lambda a, b: a in b, "$nin": lambda a, b: a not in b,
               "$exists": lambda a, b: (a is not None) == b}


def plain(value):
    """Returns a value with numbers in the place of their texts, so that selectors can compare them."""
    if isinstance(value, dict):
        return {name: plain(item) for name, item in value.items()}
    if isinstance(value, list):
        return [plain(item) for item in value]
    return json.loads(value) if isinstance(value, Written) else value


def matches(selector, shown):
    """Whether a selector of _find matches a document. Fields are not nested."""
    for name, due in plain(selector).items():
        if name in ("$and", "$or"):
            if not (all if name == "$and" else any)(matches(each, shown) for each in due):
                return False
        elif name == "$not":
            if matches(due, shown):
                return False
        else:
            tests = due if isinstance(due, dict) and any(key.startswith("$") for key in due) else {"$eq": due}
            if not all(COMPARISONS[test](plain(shown.get(name)), bound) for test, bound in tests.items()):
                return False
    return True


def new_uuid():
    return "%032x" % random.getrandbits(128)


def fill(db, count, seed):
    """Adds documents as people have them: ids with every character, fractions, long numbers, attachments, histories, conflicts
    of live and of deleted leaves, deletions, design documents."""
    drawn = random.Random(seed)
    letters = ["abcXYZ09-_.~ ", "\"\\/\b\f\n\r\t\x00\x1f\x7f", "äßñéЖ", "漢字\u2028", "😀𝄞", "{}[]:,'$`&|;*"]

    def text(size):
        return "".join(drawn.choice(drawn.choice(letters)) for _ in range(size))

    def body():
        made = {"type": "order", "price": Written(drawn.choice(["12.5", "1e30", "-0", "1.50", "18446744073709551616"])),
                "text": text(20), "ok": {"doc": [{"docs": 1}]}, "whole": text(5)}
        if drawn.random() < 0.2:
            made["_attachments"] = {"a.bin": {"content_type": "x/y", "revpos": Written(1), "data": "QUJD" * drawn.randrange(50)}}
        return dict(item for item in made.items() if drawn.random() < 0.8)

    for place in range(count):
        name = ("_design/" if place % 40 == 7 else "d") + text(drawn.randrange(12)) + str(place)
        rev = None
        for _ in range(drawn.randrange(1, 5)):
            rev = db.edit(name, rev, False, body())
        for _ in range(drawn.choice([0, 0, 0, 1, 2]) if rev[0] != "1" else 0):
            revs = db.documents[name].ancestry(rev)[1:]
            sig = "%032x" % drawn.getrandbits(128)
            db.put(name, ["%d-%s" % (order(revs[0])[0] + 1, sig), *revs], drawn.random() < 0.3, body())
        if drawn.random() < 0.1:
            db.edit(name, db.documents[name].leaves()[0], True, {})
