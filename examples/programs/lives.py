"""Judges what a program answered to the lines of lives of a store, in which some request for memory or some call was refused.

`problem` names the first line that is not as it may be, or is None. It keeps a plain map, and knows nothing of pages, logs or locks, so that it knows
of a structure change made page by page only that it goes on:

- up to the first refusal a line answers as it does undisturbed;
- a line that is refused 9 is one that takes memory (docs/FAULTS.md), and has changed nothing: each line behind it answers by what the lines before it
  did, and a rollback or a return goes on where it stood;
- behind `refused 8` or `refused 10` the engine answers `refused 10` alone; an opening that does not succeed is refused 9 or 8;
- an insert or delete answered `more` with `stepped` goes on by continues of its transaction, which answer `more` until they end it; another step of
  that transaction is refused 17, and only a step of another by a key, or its continue, is told `blocked tree`;
- in the end there is what was acknowledged, and of the commits that were asked and not acknowledged a front.
"""

import os
import pathlib
import re

MOST_ACTIVE = 64
BY_KEY = {"fetch", "seek", "next", "prev", "scan", "insert", "delete"}
# what may be refused 9: these ask for locks, and a continue for the pages of a split
TAKES_MEMORY = BY_KEY | {"continue"}
# how a change ends that is answered `more` with `stepped`
ENDS = {"insert": "inserted", "delete": "deleted"}
# lines that tell counts: these may differ once something was refused
COUNTS = {"calls", "redo", "log"}


def key_of(word):
    """The bytes of a key as a script has it, as the program prints them."""
    text = word
    if "+" in word:
        text, _, times = word.partition("+")
        piece, _, count = times.partition("*")
        text += piece * int(count)
    return text.encode().hex()


def put_back(now, key, was):
    """A map in which a key has the row id that it had, or none."""
    now.pop(key, None)
    if was is not None:
        now[key] = was
    return now


class Script:
    """The lines of a script: those that set files, and those of each life, without empty ones."""

    def __init__(self, text):
        self.text = text
        self.sets = []
        self.lives = []
        for line in filter(None, text.split("\n")):
            if line.startswith("set "):
                self.sets.append(line)
            elif line.startswith("life"):
                self.lives.append([line])
            else:
                self.lives[-1].append(line)


class Wrong(Exception):
    """What a line answered that it may not answer."""


class Txn:
    def __init__(self):
        self.state = "on"
        # what each change took away, the oldest first: key, and the row id that was there, or None
        self.undo = []
        # how many of these are to be left, as they are taken back
        self.left = 0
        # how many of these may be taken back already, as each continue makes a page or takes one back with `stepped`
        self.maybe = 0


class Life:
    """What the lines of one life have done so far, by their replies."""

    def __init__(self, base, options, next_number):
        words = options.split(" ")
        self.base = base
        self.now = dict(base)
        self.txns = {}
        self.asked = []
        self.failed = False
        self.group, self.stepped = "group" in words, "stepped" in words
        # the transaction whose insert or delete goes on, how that ends, and its line
        self.under = None, None, None
        self.has_most = "max" in words
        # a number that a life before used may come again, where it left nothing; None: any number
        self.least, self.next = 1, next_number
        self.is_first = True

    def maps(self):
        """The maps of which a step may speak: one, but beside rollbacks of which it is not known how far they are."""
        found = [self.now]
        for txn in self.txns.values():
            for front in list(found):
                for key, was in reversed(txn.undo[len(txn.undo) - txn.maybe :]):
                    front = put_back(dict(front), key, was)
                    found.append(front)
        return found

    def wanted(self, words, now):
        """What a line answers on this map, where nobody is in its way, nothing is refused and no change goes on behind it."""
        kind = words[0]
        if kind == "begin":
            return "refused 12" if len(self.txns) >= MOST_ACTIVE else f"started {self.next}"
        if kind == "switch":
            return "refused 15" if self.txns else "done"
        if kind in ("force", "checkpoint", "flush"):
            return "done"
        txn = self.txns.get(int(words[1]))
        if txn is None or txn.state == "waits":
            return "refused 1"
        is_owner = int(words[1]) == self.under[0]
        if kind == "continue":
            if is_owner:
                return self.under[1]
            if txn.state not in ("back", "returns"):
                return "refused 1"
            if len(txn.undo) > txn.left + txn.maybe + 1:
                return "more"
            return "rolledback" if txn.state == "back" else "done"
        if txn.state in ("back", "returns"):
            return "refused 4"
        if is_owner:
            return "refused 17"
        if kind == "rollto":
            return "more" if len(txn.undo) > int(words[2]) else "done"
        if kind == "rollback":
            return "more" if txn.undo else "rolledback"
        if txn.state == "dead":
            return "refused 2"
        if kind == "commit":
            return "more" if self.group and txn.undo else "committed"
        return self.read(words, now)

    def read(self, words, now):
        """What a step by a key answers, by the map alone."""
        kind, key = words[0], key_of(words[2])
        keys = [key, key_of(words[3])] if kind == "scan" else [key]
        if any(not 2 <= len(it) <= 510 for it in keys):
            return "refused 3"
        if kind == "fetch":
            return f"found {now[key]}" if key in now else "absent"
        if kind == "insert":
            return "duplicate" if key in now else "inserted"
        if kind == "delete":
            return "deleted" if key in now else "absent"
        if kind == "scan":
            found = sorted(it for it in now if keys[0] <= it <= keys[1])[: min(max(int(words[4]), 1), 256)]
            return "".join(["entries"] + [f" {it} {now[it]}" for it in found])
        if kind == "prev":
            found = max((it for it in now if it < key), default=None)
        else:
            found = min((it for it in now if it > key or (it == key and kind == "seek")), default=None)
        return "end" if found is None else f"entry {found} {now[found]}"

    def may_answer(self, reply, words):
        """Whether a line may answer so, on a map that may be there."""
        return any(self.may_answer_on(now, reply, words) for now in self.maps())

    def may_answer_on(self, now, reply, words):
        """Whether a line may answer so: as wanted, that a change goes on, or that another transaction is in the way."""
        wanted = self.wanted(words, now)
        if reply == wanted or self.stepped and not wanted.startswith("refused") and self.may_go_on(reply, words, wanted):
            return True
        if words[0] == "begin" and self.is_first and wanted != "refused 12":
            started = re.fullmatch(r"started (\d+)", reply)
            return bool(started) and (self.next is None or 1 <= int(started[1]) <= self.next)
        if wanted.startswith("refused") or words[0] not in BY_KEY:
            return False
        if reply == "refused 5":
            return words[0] == "insert" and self.has_most
        if reply == "die":
            return len(self.txns) > 1
        blocked = re.fullmatch(r"blocked lock (\d+)", reply)
        return bool(blocked) and int(blocked[1]) in self.txns and blocked[1] != words[1]

    def standing(self, number):
        """What a line may be told that asks how many changes of a transaction stand."""
        txn = self.txns.get(number)
        if txn is None or txn.state == "waits":
            return ["refused 1"]
        return [f"changes {len(txn.undo) - taken}" for taken in range(txn.maybe + 1)]

    def may_go_on(self, reply, words, wanted):
        """Whether a line may answer so, as changes are made page by page: one at a time, and nobody is in its owner's way."""
        owner = self.under[0]
        if reply == "more":
            return words[0] == "continue" or wanted == ENDS.get(words[0]) and owner is None
        if reply != "blocked tree" or words[0] not in TAKES_MEMORY or int(words[1]) == owner:
            return False
        return owner is not None or any(txn.maybe for number, txn in self.txns.items() if number != int(words[1]))

    def take(self, reply, words):
        """What a line has done that answered so."""
        kind = words[0]
        if kind == "begin":
            if reply.startswith("started "):
                number = int(reply.split(" ")[1])
                self.next, self.is_first = number + 1, False
                self.txns[number] = Txn()
            return
        if kind == "force":
            if reply == "done":
                for number in [it for it, txn in self.txns.items() if txn.state == "waits"]:
                    del self.txns[number]
                self.asked = [(effect, True) for effect, _ in self.asked]
            return
        if kind in ("switch", "checkpoint", "flush", "page"):
            return
        number = int(words[1])
        txn = self.txns.get(number)
        if txn is None:
            return
        if kind in ENDS and reply in (ENDS[kind], "more"):
            if reply == "more":
                self.under = number, ENDS[kind], words
            # a delete's record comes before its pages, that of an insert after them
            if kind == "delete" or reply != "more":
                self.change(txn, words)
        elif kind == "continue" and number == self.under[0]:
            if reply == "inserted":
                self.change(txn, self.under[2])
            if reply == self.under[1]:
                self.under = None, None, None
        elif reply == "die":
            txn.state = "dead"
        elif kind == "rollback" and reply == "more":
            txn.state, txn.left = "back", 0
        elif kind == "rollto" and reply == "more":
            txn.state, txn.left = "returns", int(words[2])
        elif kind == "rollto" and reply == "done":
            txn.state = "on"
        elif kind == "continue" and reply in ("more", "rolledback", "done"):
            self.take_back(reply, txn)
        elif kind == "commit" and txn.state == "on":
            self.commit(reply, txn)
        if reply in ("rolledback", "committed"):
            del self.txns[number]

    def change(self, txn, words):
        """An insert or a delete has logged its record."""
        key = key_of(words[2])
        txn.undo.append((key, self.now.pop(key, None)))
        if words[0] == "insert":
            self.now[key] = words[3]

    def take_back(self, reply, txn):
        """A continue of a rollback or a return was made: it has taken one record back, or with `stepped` one at most, until no more are to be."""
        if self.stepped and reply == "more":
            txn.maybe = min(txn.maybe + 1, len(txn.undo) - txn.left)
            return
        for _ in range(len(txn.undo) - txn.left if self.stepped else 1):
            put_back(self.now, *txn.undo.pop())
        if reply == "done":
            txn.state, txn.maybe = "on", 0

    def commit(self, reply, txn):
        """A Commit was asked, unless it was refused with nothing changed. One of no changes asks for nothing."""
        if txn.undo and reply in ("committed", "more", "refused 8", "refused 10", "stopped"):
            effect = {key: self.now.get(key) for key, _ in txn.undo}
            self.asked.append((effect, reply == "committed"))
        if reply == "more":
            txn.state = "waits"

    def ends(self):
        """The maps that may be there behind this life: of a front of what was asked, with all that was acknowledged."""
        found, front = [], dict(self.base)
        for i in range(len(self.asked) + 1):
            if not any(acked for _, acked in self.asked[i:]) and front not in found:
                found.append(dict(front))
            if i < len(self.asked):
                for key, rid in self.asked[i][0].items():
                    front.pop(key, None)
                    if rid is not None:
                        front[key] = rid
        return found


def entries_in(lines):
    """The map that a `final N` line and those behind it have, or None."""
    if not re.fullmatch(r"final \d+", lines[0]) or len(lines) != int(lines[0].split(" ")[1]) + 1:
        return None
    return dict(line.split(" ") for line in lines[1:])


def scripts_in(folder, below):
    """The scripts of the folders below this one that are named so, in the order of their names."""
    return sorted(map(str, pathlib.Path(folder).glob(f"{below}/*.script")), key=os.path.basename)


def in_order(pool, work, cases, size):
    """What the work answers for each case, in their order. Those of the greatest size are begun first, so that none of them ends long after the others."""
    begun = {at: pool.apply_async(work, (cases[at],)) for at in sorted(range(len(cases)), key=lambda at: -size(cases[at]))}
    for at in range(len(cases)):
        yield begun[at].get()


def is_stored(path, lines):
    """Whether each line that is stored is among these; with STORE=1 these are stored."""
    if os.environ.get("STORE") == "1":
        with open(path, "w", encoding="ascii") as it:
            it.write("".join(f"{line}\n" for line in lines))
        return True
    with open(path, encoding="ascii") as it:
        stored = it.read().split("\n")[:-1]
    lacking = [line for line in stored if line not in set(lines)]
    for line in lacking:
        print(f"stored, and not found: {line}")
    return not lacking


class Judge:
    """Judges outputs of one script."""

    def __init__(self, script, base, plain):
        # base: the map of the files that the script sets; None, where they are no store
        self.script, self.base, self.plain = script, base, plain

    def problem(self, told):
        """The first line of this output that is not as it may be, or None."""
        try:
            self.lives(told, 0, 0, [self.base], None if self.script.sets else 1, False)
            return None
        except Wrong as it:
            return str(it)

    def lives(self, told, index, at, bases, next_number, disturbed):
        """Judges the output from this line on, as of the life of this index, on one of these maps."""
        last = None
        for base in bases:
            try:
                return self.life(told, index, at, base, next_number, disturbed)
            except Wrong as it:
                last = last or it
        raise last

    def life(self, told, index, at, base, next_number, disturbed):
        if index == len(self.script.lives):
            return self.end(told, at, base)
        lines = self.script.lives[index]
        reply = told[at] if at < len(told) else "nothing"
        disturbed = disturbed or reply != self.plain[at]
        if base is None or not reply.startswith("open ok "):
            # of no store, with too few frames or workers, or with a full log, it is refused as it is undisturbed
            usual = base is None or reply in ("open refused 7", "open refused 13", "open refused 18")
            if reply not in ("open refused 8", "open refused 9", "open stopped") and not (usual and reply == self.plain[at]):
                raise Wrong(f"line {at + 1}: {reply}")
            return self.lives(told, index + 1, at + 1, [base], next_number, disturbed)
        life = Life(base, lines[0], next_number)
        at, disturbed = self.steps(told, at + 1, lines[1:], life, disturbed)
        return self.lives(told, index + 1, at, life.ends(), life.next, disturbed)

    def steps(self, told, at, lines, life, disturbed):
        for line in lines:
            words = line.split(" ")
            if words[0] == "stop":
                break
            reply = told[at] if at < len(told) else "nothing"
            differs = at >= len(self.plain) or reply != self.plain[at]
            at += 1
            if words[0] in COUNTS:
                if not re.fullmatch(rf"{words[0]}( \d+)+", reply):
                    raise Wrong(f"line {at}: {reply}")
                continue
            if reply == "stopped":
                life.take(reply, words)
                break
            if life.failed:
                if reply != "refused 10":
                    raise Wrong(f"line {at}: {reply}, though the engine has failed")
                continue
            if words[0] == "changes":
                if reply not in life.standing(int(words[1])):
                    raise Wrong(f"line {at}: {reply}, not {' or '.join(life.standing(int(words[1])))}")
                continue
            if reply == "refused 9":
                if words[0] not in TAKES_MEMORY:
                    raise Wrong(f"line {at}: a {words[0]} takes no memory")
                disturbed = True
                continue
            if reply in ("refused 8", "refused 10"):
                disturbed = disturbed or differs
                life.failed = True
            elif reply in ("refused 6", "refused 7") and not differs:
                continue
            elif not disturbed and differs:
                raise Wrong(f"line {at}: {reply}, not {self.plain[at - 1]}")
            elif not (reply.startswith("page ") if words[0] == "page" else life.may_answer(reply, words)):
                raise Wrong(f"line {at}: {reply}, not {life.wanted(words, life.now) if words[0] != 'page' else 'page ..'}")
            life.take(reply, words)
        return at, disturbed

    def end(self, told, at, base):
        left = told[at:] or ["nothing"]
        usual = base is None or left[0] == "final refused 7"
        if left[0] in ("final refused 8", "final refused 9") or (usual and left[0] == self.plain[-1]):
            return
        if entries_in(left) != base:
            raise Wrong(f"line {at + 1}: other entries in the end")
