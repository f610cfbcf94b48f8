#!/usr/bin/env python3
"""Compares the program replay_stores with a model of plain Python lists.

Random texts of calls are made from a seed. The model answers each call, by the rules of docs/STORES.md alone;
the program is run on the whole text, and every line that it prints has to be the model's.
Some fixed texts come first: texts that are no texts of calls, and texts that fill a table to its end.

The first difference ends the test with status 1.
"""

import argparse
import collections
import pathlib
import random
import subprocess
import sys
import tempfile

ROOT = pathlib.Path(__file__).resolve().parent.parent

LONGEST_TEXT = 8_000_000
MOST_PLACES = 65_000
SLOTS = 16
TOP = 65_535
TOP_NUMBER = 4_294_967_295

CHANGES = ("push", "inject", "pop", "eject")
ACCOUNT_QUESTIONS = ("longest", "number", "credit", "promised")
VERSION_QUESTIONS = ("length", "item", "front", "back", "list")


class Refused(Exception):
    """A question that is answered no: its number, and the table that it names or 0."""


class Store:
    """The model of a two-list store, with its slots.

    A version is a plain list. Its front list is the first items of that list and its rear list the others,
    so two lengths say which item lies on which side.
    """

    def __init__(self, number, longest, versions, items, cells):
        self.number = number
        self.longest = min(max(longest, 1), 1000)
        self.places = [min(size, MOST_PLACES) for size in (versions, items, cells)]
        self.filled = [0, 0, 0]
        self.versions = [[]]
        self.sides = [(0, 0)]
        self.promised = 0
        self.slots = {}
        # what the run has come across
        self.rebuilds = 0
        self.largest_rebuild = 0
        self.deepest = 0
        self.only_under = 0

    def shares(self):
        free = [places - filled for places, filled in zip(self.places, self.filled)]
        return [free[0], free[1], free[2] // self.longest]

    def credit(self):
        return min(self.shares())

    def ask_version(self, version):
        if version >= len(self.versions):
            raise Refused(1, 0)

    def ask_length(self, word, version):
        length = len(self.versions[version])
        if word in ("pop", "eject") and length == 0:
            raise Refused(2, 0)
        if word in ("push", "inject") and length >= self.longest:
            raise Refused(3, 0)

    def ask_credit(self, count):
        wanted = self.promised + count
        for table, share in enumerate(self.shares(), 1):
            if share < wanted:
                raise Refused(6, table)

    def make(self, word, version, item):
        """Carries out a change that was accepted."""
        before = self.versions[version]
        front, rear = self.sides[version]
        cells = 0
        taken = None
        if word == "push":
            after, front, cells = [item] + before, front + 1, 1
        elif word == "inject":
            after, rear, cells = before + [item], rear + 1, 1
        elif word == "pop":
            taken, after = before[0], before[1:]
            if front == 0:
                cells = rear
                front, rear = rear - rear // 2, rear // 2
            front -= 1
        else:
            taken, after = before[-1], before[:-1]
            if rear == 0:
                cells = front
                front, rear = front // 2, front - front // 2
            rear -= 1
        assert (front >= 0) and (rear >= 0) and (front + rear == len(after))
        if taken is not None and cells > 0:
            self.rebuilds += 1
            self.largest_rebuild = max(self.largest_rebuild, cells)
        self.filled[0] += 1
        self.filled[1] += word in ("push", "inject")
        self.filled[2] += cells
        self.versions.append(after)
        self.sides.append((front, rear))
        self.deepest = max(self.deepest, len(after))
        new = len(self.versions) - 1
        return ("version", new) if taken is None else ("version", new, taken)

    def change(self, word, version, item=None):
        self.ask_version(version)
        self.ask_length(word, version)
        self.ask_credit(1)
        return self.make(word, version, item)

    def under(self, slot, word, version, item=None):
        if slot not in self.slots:
            return ("no-slot",)
        self.ask_version(version)
        self.ask_length(word, version)
        # 4 is not asked: what lies in the slots was reserved on this store, and promised counts all of it
        if self.slots[slot] == 0:
            raise Refused(5, 0)
        self.only_under += self.promised >= self.credit()
        self.slots[slot] -= 1
        self.promised -= 1
        return self.make(word, version, item)

    def reserve(self, slot, count):
        if slot >= SLOTS or slot in self.slots:
            return ("no-slot",)
        if not 1 <= count <= 255:
            raise Refused(7, 0)
        self.ask_credit(count)
        self.slots[slot] = count
        self.promised += count
        return ("reserved",)

    def close(self, slot):
        if slot not in self.slots:
            return ("no-slot",)
        self.promised -= self.slots.pop(slot)
        return ("closed",)

    def ask(self, word, version, place=0):
        self.ask_version(version)
        items = self.versions[version]
        if word == "length":
            return ("length", len(items))
        if word == "list":
            return ("list", *items)
        if word == "back":
            place = len(items) - 1
        return ("item", items[place]) if 0 <= place < len(items) else ("none",)

    def answer(self, call):
        """The fields of the line that answers a call. The credit falls by one at most, and covers what is promised."""
        credit = self.credit()
        answer = self.carry_out(call)
        fallen = credit - self.credit()
        assert fallen == 0 or (fallen == 1 and answer[0] == "version"), call
        assert 0 <= self.promised <= self.credit(), call
        return answer

    def carry_out(self, call):
        word, *fields = call
        try:
            if word in CHANGES:
                return self.change(word, *fields)
            if word == "under":
                return self.under(*fields)
            if word == "reserve":
                return self.reserve(*fields)
            if word == "close":
                return self.close(*fields)
            if word in VERSION_QUESTIONS:
                return self.ask(word, *fields)
            return ("value", self.credit() if word == "credit" else getattr(self, word))
        except Refused as refusal:
            return ("refused", *refusal.args)


class Caller:
    """Chooses calls on a store, in phases that each have their own habits."""

    # how often push, inject, pop and eject are chosen
    HABITS = [
        (1, 1, 1, 1),
        (1, 0, 0, 0),
        (0, 1, 0, 0),
        (0, 0, 1, 0),
        (0, 0, 0, 1),
        (1, 1, 0, 0),
        (0, 0, 1, 1),
        (0, 1, 1, 0),
        (1, 0, 0, 1),
        (4, 4, 1, 1),
        (1, 1, 4, 4),
    ]

    def __init__(self, dice, store):
        self.dice = dice
        self.store = store
        self.left = 0
        self.climbed = False

    def begin_phase(self):
        dice, store = self.dice, self.store
        self.same = dice.randrange(len(store.versions))
        climbed, self.climbed = self.climbed, False
        if climbed and dice.random() < 0.5:
            # takes from the long version at the top, again and again
            self.left = dice.randrange(2, 12)
            self.same = len(store.versions) - 1
            self.habit = (0, 0, 1, 1)
            self.where = "same"
            self.shares = (5, 5, 2, 1)
            return
        if dice.random() < 0.15:
            # up to the longest length, at one end or both, and never back to an older version
            self.climbed = True
            self.left = store.longest + 20
            self.habit = dice.choice(((1, 0, 0, 0), (0, 1, 0, 0), (1, 1, 0, 0)))
            self.where = "newest"
            self.shares = (40, 0, 0, 1)
            return
        self.left = dice.choice((5, 20, 60, 200))
        self.habit = dice.choice(self.HABITS)
        # which versions are changed: mostly the newest, mostly the same old one, or any
        self.where = dice.choice(("newest", "newest", "same", "any"))
        # how the calls are shared out among changes, changes under reservations, reserve and close, questions
        self.shares = dice.choice(((8, 2, 1, 2), (20, 0, 0, 1), (2, 8, 3, 1), (1, 1, 4, 2), (2, 1, 1, 8)))

    def hear(self, answer):
        """A phase in which versions are full or empty ends soon."""
        if answer[0] == "refused" and answer[1] in (2, 3) and self.dice.random() < 0.2:
            self.left = 0

    def version(self):
        dice, count = self.dice, len(self.store.versions)
        if dice.random() < 0.02:
            return min(TOP, dice.choice((count, count + 1, count + dice.randrange(1000), TOP)))
        if not self.climbed and dice.random() < 0.02:
            return dice.choice((0, count - 1, max(0, count - 1 - dice.randrange(10)), dice.randrange(count)))
        return {"newest": count - 1, "same": self.same, "any": dice.randrange(count)}[self.where]

    def change(self):
        dice = self.dice
        word = dice.choices(CHANGES, self.habit)[0] if dice.random() < 0.98 else dice.choice(CHANGES)
        if word in ("pop", "eject"):
            return (word, self.version())
        return (word, self.version(), dice.choice((0, TOP, dice.randrange(256), dice.randrange(TOP + 1))))

    def slot(self, held):
        """A slot that holds a reservation, or one that is free; at times any, or one that is missing."""
        dice = self.dice
        if dice.random() < 0.1:
            return dice.choice((0, SLOTS - 1, SLOTS, SLOTS + 1, 255, dice.randrange(256)))
        slots = [slot for slot in range(SLOTS) if (slot in self.store.slots) == held]
        return dice.choice(slots) if slots else dice.randrange(SLOTS)

    def count(self):
        """How many changes to reserve: few, so that they get spent, or a number at a bound."""
        dice, store = self.dice, self.store
        if dice.random() < 0.6:
            return dice.choice((1, 1, 2, 3, 5, 20))
        room = store.credit() - store.promised
        return dice.choice((0, 255, 256, TOP, dice.randrange(TOP + 1), dice.randrange(256), room, room + 1))

    def question(self):
        dice, store = self.dice, self.store
        if dice.random() < 0.3:
            return (dice.choice(ACCOUNT_QUESTIONS),)
        word, version = dice.choice(VERSION_QUESTIONS), self.version()
        if word != "item":
            return (word, version)
        if version >= len(store.versions):
            return (word, version, dice.randrange(TOP + 1))
        front, rear = store.sides[version]
        length = front + rear
        places = (0, front - 1, front, length - 1, length, length + 1, TOP, dice.randrange(length + 1))
        return (word, version, max(0, dice.choice(places)))

    def call(self):
        if self.left == 0:
            self.begin_phase()
        self.left -= 1
        kind = self.dice.choices(("change", "under", "account", "question"), self.shares)[0]
        if kind == "change":
            return self.change()
        if kind == "under":
            return ("under", self.slot(held=True), *self.change())
        if kind == "question":
            return self.question()
        if self.dice.random() < 0.5:
            return ("reserve", self.slot(held=False), self.count())
        return ("close", self.slot(held=True))


def random_number(dice):
    return dice.choice((0, 1, TOP_NUMBER, dice.randrange(TOP_NUMBER + 1)))


def small_opening(dice):
    """Tables that are soon full: one of them, or any."""
    longest = dice.choice((0, 1, 2, 3, 5, 8, 17, 40, 1000, 1001))
    bound = min(max(longest, 1), 1000)
    versions, items, share = (dice.choice((0, 1, 2, 5, 20, 60)) for _ in range(3))
    tight = (versions, items, share * bound + dice.randrange(bound))
    roomy = (400, 400, min(TOP, 400 * bound))
    which = dice.choice(((0,), (1,), (2,), (0, 1, 2)))
    sizes = (tight[table] if table in which else roomy[table] for table in range(3))
    return (random_number(dice), longest, *sizes)


def large_opening(dice):
    longest = dice.choice((0, 1, 2, 3, 10, 64, 100, 255, 256, 999, 1000, 1000, 1001, TOP))
    sizes = [dice.choice((TOP, TOP, 65_001, 65_000, 64_999, 40_000)) for _ in range(3)]
    return (random_number(dice), longest, *sizes)


def tsv(fields):
    return "\t".join(map(str, fields))


def run(program, text):
    """What the program prints. It says nothing on standard error and has status 0."""
    try:
        done = subprocess.run([program], input=text, capture_output=True, timeout=600, check=False)
    except OSError as error:
        sys.exit(f"{program}: {error.strerror}; bin/replay_stores builds it")
    if done.returncode != 0 or done.stderr:
        fail(text, f"status {done.returncode}, standard error {done.stderr!r}")
    return done.stdout


def fail(text, message):
    with tempfile.NamedTemporaryFile(prefix="replay_histories.", suffix=".calls", delete=False) as kept:
        kept.write(text)
    print(f"DIFFERENT: {message}\nthe text is in {kept.name}")
    sys.exit(1)


class Seen:
    """What the answers were, for the report."""

    def __init__(self):
        self.calls = 0
        self.stores = 0
        self.answers = collections.Counter()
        self.by_word = collections.defaultdict(collections.Counter)
        self.rebuilds = 0
        self.largest_rebuild = 0
        self.deepest = 0
        self.only_under = 0

    def add(self, store, calls, answers):
        self.stores += 1
        self.calls += len(calls)
        for call, answer in zip(calls, answers):
            kind = tsv(answer).replace("\t", " ") if answer[0] == "refused" else answer[0]
            word = f"under {call[2]}" if call[0] == "under" else call[0]
            self.answers[kind] += 1
            self.by_word[word][kind] += 1
        self.rebuilds += store.rebuilds
        self.largest_rebuild = max(self.largest_rebuild, store.largest_rebuild)
        self.deepest = max(self.deepest, store.deepest)
        self.only_under += store.only_under

    EVERY = ("version", "reserved", "closed", "value", "length", "item", "none", "list", "no-slot") + tuple(
        f"refused {refusal}" for refusal in ("1 0", "2 0", "3 0", "5 0", "6 1", "6 2", "6 3", "7 0"))

    def report(self):
        print(f"{self.calls} random calls on {self.stores} stores, every answer as expected")
        print("answers:")
        for kind in self.EVERY:
            print(f"  {kind:12} {self.answers[kind] or 'not seen'}")
        print("  refused 4 0  cannot occur: each slot holds a reservation of the one store there is")
        print("  refused 6 4  cannot occur: a two-list store has no pairs")
        print("answers to each call:")
        for word, kinds in sorted(self.by_word.items()):
            print(f"  {word:12} {', '.join(f'{kind}: {count}' for kind, count in sorted(kinds.items()))}")
        print(f"rebuilds: {self.rebuilds}, the largest of {self.largest_rebuild} items")
        print(f"the longest version: {self.deepest} items")
        print(f"accepted under a reservation where the credit would have refused a plain change: {self.only_under}")


def compare(program, seen, name, opening, store, calls, answers):
    text = "".join(tsv(fields) + "\n" for fields in [("two-list", *opening), *calls]).encode()
    assert len(text) <= LONGEST_TEXT, "more calls than a text may have"
    lines = run(program, text).decode("latin-1").split("\n")
    for place, (call, answer) in enumerate(zip(calls, answers)):
        came = lines[place] if place < len(lines) - 1 else "nothing, or a line without its line feed"
        if came != tsv(answer):
            difference = f"  call      {tsv(call)}\n  expected  {tsv(answer)}\n  came      {came}"
            fail(text, f"{name}, line {place + 2}\n{difference}")
    if lines[len(calls):] != [""]:
        fail(text, f"{name}: more was printed than {len(calls)} lines")
    seen.add(store, calls, answers)


def random_store(program, seen, dice, name, opening, most):
    """One store and at most so many random calls. Returns how many were made."""
    store = Store(*opening)
    caller = Caller(dice, store)
    calls, answers = [], []
    spare = 40
    while len(calls) < most and spare > 0:
        call = caller.call()
        calls.append(call)
        answers.append(store.answer(call))
        caller.hear(answers[-1])
        # a store without credit is soon left
        spare -= store.credit() == 0
    compare(program, seen, name, opening, store, calls, answers)
    return len(calls)


def random_run(program, seen, seed, calls, sizes):
    dice = random.Random(seed)
    made = 0
    while made < calls:
        large = sizes == "large" or (sizes == "both" and dice.random() < 0.04)
        opening = large_opening(dice) if large else small_opening(dice)
        most = dice.choice((2_000, 4_000, 20_000)) if large else dice.choice((50, 200, 800))
        name = f"seed {seed}, calls {made + 1} and up"
        made += random_store(program, seen, dice, name, opening, min(most, calls - made))


def filling_runs(program):
    """Texts that fill a table to its end, one table each; the last changes are refused."""
    seen = Seen()
    for opening, answer in (
        ((1, 1, TOP, TOP, TOP), ("refused", 6, 1)),
        ((2, 1, TOP, 64_990, TOP), ("refused", 6, 2)),
        ((3, 2, TOP, TOP, TOP), ("refused", 6, 3)),
    ):
        store = Store(*opening)
        calls = [("push", 0, place % 50_000) for place in range(MOST_PLACES + 5)]
        answers = [store.answer(call) for call in calls]
        assert answers[-1] == answer
        compare(program, seen, f"filling a table, to {tsv(answer)}", opening, store, calls, answers)
    print(f"{seen.calls} pushes that fill each table once, every answer as expected")


OPEN = b"two-list\t7\t3\t20\t10\t60\n"

# a text of 8,000,000 bytes
CREDIT_LINES = (LONGEST_TEXT - len(OPEN)) // len(b"credit\n")
LONGEST = OPEN + b"credit\n" * CREDIT_LINES
assert len(LONGEST) == LONGEST_TEXT

# texts that are no texts of calls, and the number of the first bad line
BAD = [
    ("no bytes", b"", 1),
    ("a line feed", b"\n", 1),
    ("four numbers in line 1", b"two-list\t7\t3\t20\t10\n", 1),
    ("six numbers in line 1", b"two-list\t7\t3\t20\t10\t60\t1\n", 1),
    ("another word in line 1", b"one-list\t7\t3\t20\t10\t60\n", 1),
    ("a call in line 1", b"push\t0\t97\n" + OPEN, 1),
    ("line 1 without its line feed", OPEN[:-1], 1),
    ("a leading zero in line 1", b"two-list\t07\t3\t20\t10\t60\n", 1),
    ("a number above 4294967295 in line 1", b"two-list\t4294967296\t3\t20\t10\t60\n", 1),
    ("a longest length above 65535", b"two-list\t7\t65536\t20\t10\t60\n", 1),
    ("a table above 65535", b"two-list\t7\t3\t20\t10\t65536\n", 1),
    ("a tab behind line 1", b"two-list\t7\t3\t20\t10\t60\t\n", 1),
    ("a second opening", OPEN + OPEN, 2),
    ("a leading zero", OPEN + b"push\t0\t97\npush\t01\t98\n", 3),
    ("two zeros", OPEN + b"pop\t00\n", 2),
    ("a plus sign", OPEN + b"push\t0\t+97\n", 2),
    ("a minus sign", OPEN + b"push\t0\t-1\n", 2),
    ("a point", OPEN + b"push\t0\t1.5\n", 2),
    ("no item", OPEN + b"push\t0\n", 2),
    ("an empty item", OPEN + b"push\t0\t\n", 2),
    ("no version", OPEN + b"pop\n", 2),
    ("no place", OPEN + b"item\t0\n", 2),
    ("a field too many behind pop", OPEN + b"pop\t0\t1\n", 2),
    ("a field too many behind push", OPEN + b"push\t0\t1\t2\n", 2),
    ("a field too many behind credit", OPEN + b"credit\t0\n", 2),
    ("a tab behind the last field", OPEN + b"credit\t\n", 2),
    ("two tabs", OPEN + b"push\t\t0\t1\n", 2),
    ("a space for a tab", OPEN + b"push 0 97\n", 2),
    ("a space at the end", OPEN + b"push\t0\t97 \n", 2),
    ("a carriage return", OPEN + b"push\t0\t97\r\n", 2),
    ("a blank line", OPEN + b"push\t0\t97\n\npop\t1\n", 3),
    ("a line feed more at the end", OPEN + b"push\t0\t97\n\n", 3),
    ("the last line without its line feed", OPEN + b"push\t0\t97\npop\t1", 3),
    ("an item above 65535", OPEN + b"push\t0\t65536\n", 2),
    ("a version above 65535", OPEN + b"pop\t65536\n", 2),
    ("a count above 65535", OPEN + b"reserve\t0\t65536\n", 2),
    ("a number of 30 digits", OPEN + b"push\t0\t" + b"1" * 30 + b"\n", 2),
    ("2 to the power of 32", OPEN + b"push\t0\t4294967296\n", 2),
    ("a slot above 255", OPEN + b"close\t256\n", 2),
    ("an unknown word", OPEN + b"peek\t0\n", 2),
    ("an upper-case word", OPEN + b"Push\t0\t97\n", 2),
    ("under without a change", OPEN + b"under\t0\n", 2),
    ("under with a question", OPEN + b"under\t0\tlength\t0\n", 2),
    ("under in under", OPEN + b"under\t0\tunder\t0\tpop\t0\n", 2),
    ("under without a slot", OPEN + b"under\tpop\t0\n", 2),
    ("bytes of no letter", OPEN + b"\x00\xff\n", 2),
    ("two bad lines", OPEN + b"credit\n" * 500 + b"pop\nlist\n", 502),
    ("8,000,001 bytes", LONGEST + b"\n", 0),
]


def fixed_texts(program):
    for name, text, line in BAD:
        expected = f"bad\t{line}\n".encode()
        came = run(program, text)
        if came != expected:
            fail(text, f"{name}\n  expected  {expected!r}\n  came      {came!r}")
    if run(program, OPEN) != b"":
        fail(OPEN, "line 1 alone: something was printed")
    if run(program, LONGEST) != b"value\t10\n" * CREDIT_LINES:
        fail(LONGEST, "8,000,000 bytes: the answers differ from the expected ones")
    print(f"{len(BAD)} texts that are no texts of calls, each answered bad with its line")


def main():
    parser = argparse.ArgumentParser(
        description="Compares replay_stores with a model of plain lists, on random texts of calls.",
        formatter_class=argparse.ArgumentDefaultsHelpFormatter,
    )
    option = parser.add_argument
    option("--program", default=str(ROOT / "crates" / "replay_stores" / "out" / "replay_stores"), help="the program to run")
    option("--seed", type=int, default=1, help="the seed of the first run; each further run has the next one")
    option("--calls", type=int, default=20_000, help="how many calls a run makes")
    option("--runs", type=int, default=1, help="how many runs there are")
    option("--sizes", choices=("small", "large", "both"), default="both", help="small stores are soon full")
    options = parser.parse_args()
    fixed_texts(options.program)
    filling_runs(options.program)
    seen = Seen()
    for seed in range(options.seed, options.seed + options.runs):
        random_run(options.program, seen, seed, options.calls, options.sizes)
    seen.report()


if __name__ == "__main__":
    main()
