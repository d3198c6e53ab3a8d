#!/usr/bin/env python3
"""Makes the journals on which the library is compared with model.py.

    journals.py FOLDER              writes each journal as FOLDER/NAME.journal
    journals.py FOLDER --expected   the same, and beside each FOLDER/NAME.expected: what is to be shown of it
    journals.py --examples          writes those journals that stand as examples beside this script
    journals.py --crate FOLDER      writes what the program journal_runs is run on: FOLDER/args, FOLDER/data/,
                                    and what it is to print: FOLDER/stdout

What is expected comes from model.py alone. Where this script knows more, it says so: a journal that is meant to be
refused is listed with its fault, its line and the cause, a run with the state that it ends in, each worked out by
hand from docs/. The script stops where the model says something else, so the two check each other.

Each run of this script gives the same bytes.
"""
import copy
import pathlib
import sys

sys.dont_write_bytecode = True  # so that importing the model leaves no cache in the repository
import model

HERE = pathlib.Path(__file__).resolve().parent
LONGEST = 65536  # bytes of a journal, at most

# The examples that are written by hand; the others of this folder are among the journals below.
BY_HAND = (
    "two-commands", "classes", "peak", "losses", "largest-header",
    "fault-14-missing-move", "fault-14-no-line-feed", "fault-15-leading-zero", "fault-15-register",
)

# Those of the journals below that stand in this folder as examples.
AS_EXAMPLES = (
    "master-lost", "backup-lost", "both-lost", "fatal", "classes-at-success", "peak-at-success", "longest-run",
    "fault-13-too-long", "fault-14-empty-line", "fault-15-minus-zero", "fault-15-carriage-return",
    "fault-16-refused-step", "fault-16-no-such-command", "fault-16-after-success", "fault-16-late",
)


class Case:
    """A journal with its name, and, where it is known by hand, what it is meant to show: a state, or a fault with its
    line. With a refused step the number of the cause for which the hub refuses it may be given too.
    """

    def __init__(self, name, journal, state=None, fault=None, cause=None):
        self.name, self.journal, self.state, self.fault, self.cause = name, journal, state, fault, cause

    def expected(self):
        """The text that is to be shown; stops the script where the model and this script differ."""
        state = fault = cause = None
        try:
            hub = model.replay(self.journal)
            state, text = hub.state, model.report(hub)
        except model.Denied as d:
            fault, text = (d.number, d.line), f"fault={d.number}\nline={d.line}\n"
            # The model raises 16 while it handles the hub's own refusal.
            cause = d.__context__.number if d.number == 16 else None
        for meant, said in ((self.state, state), (self.fault, fault), (self.cause, cause)):
            if meant is not None and meant != said:
                sys.exit(f"{self.name}: meant {meant}, but the model says {said}")
        return text


def journal_of(moves, kills, cards, register, steps):
    """A journal as bytes; the steps are words such as 'A1' and 'Q'."""
    lines = [f"commands={len(moves)}", f"kills={kills}", f"cards={cards}", f"register={register}"]
    lines += [f"move={m}" for m in moves] + [f"step={s}" for s in steps.split()]
    return "".join(line + "\n" for line in lines).encode()


def through(*commands):
    """The steps of commands that are carried out one after the other with no loss between."""
    return " ".join(f"{letter}{c}" for c in commands for letter in "ABCDF")


def examples_by_hand():
    return [Case(name, (HERE / f"{name}.journal").read_bytes()) for name in BY_HAND]


def runs():
    """Runs that the hub accepts to the end of the journal, wherever that leaves them."""
    found = []

    def run(name, state, moves, kills, cards, register, steps):
        found.append(Case(name, journal_of(moves, kills, cards, register, steps), state=state))

    # No step, and runs that stop in the middle: the two cards may then differ.
    run("no-step", "running", [5], 0, 1, "sum", "")
    run("no-step-classes", "running", [5], 0, 1, "classes", "")
    run("master-is-ahead", "running", [100, -301], 0, 1, "sum", "A1 B1 A2 B2 C1 D1")
    run("one-of-two-done", "running", [100, -301], 0, 1, "sum", through(2))
    run("all-but-the-last-step", "running", [7], 0, 1, "peak", "A1 B1 C1 D1")

    # Each register at success. The classes have the two ends of each class.
    ends = [0, 49, 50, 99, 100, 249, 250, 499, 500, 999, 1000, 2499, 2500, 4999, 5000, 9000]
    ends = [m if i % 3 else -m for i, m in enumerate(ends)]
    run("sum-at-success", "success", [9000, -1, 250], 0, 1, "sum", through(3, 1, 2))
    run("classes-at-success", "success", ends, 0, 1, "classes", through(*range(1, 17)))
    run("peak-at-success", "success", [120, -4500, 300], 0, 1, "peak", through(2, 3, 1))
    run("peak-of-zeros", "success", [0, 0], 0, 1, "peak", through(1, 2))

    # The mean: halves go away from zero, everything else to the nearest number.
    for name, moves in (
        ("half", [1, 0]), ("minus-half", [-1, 0]),
        ("third", [1, 0, 0]), ("two-thirds", [1, 1, 0]), ("minus-two-thirds", [-1, -1, 0]), ("zero", [9000, -9000]),
        ("largest", [9000, 9000, 9000, 9000]), ("smallest", [-9000]),
    ):
        run(f"mean-{name}", "success", moves, 0, 1, "sum", through(*range(1, len(moves) + 1)))

    # All 64 commands, a letter at a time.
    rounds = " ".join(f"{letter}{c}" for letter in "ABCDF" for c in range(1, 65))
    run("sixty-four-commands", "success", [9000 - 281 * i for i in range(64)], 7, 8, "sum", rounds)

    # Losses. Commands that the old master took and the backup did not are restarted with the new master.
    run("master-lost", "success", [150], 1, 2, "sum", "A1 B1 C1 Q P E1 N1 " + through(1))
    run("master-lost-before-it-took", "success", [150], 1, 2, "sum", "A1 Q G1 P J1 N1 " + through(1))
    run("master-lost-after-the-backup-took", "success", [-150], 1, 2, "sum", "A1 B1 C1 D1 Q F1")
    run("master-lost-with-two-under-way", "success", [150, -125], 1, 2, "sum",
        "A1 B1 C1 A2 B2 C2 D2 Q P E1 F2 N1 " + through(1))
    # A new backup has what the master has, so the command that waits for the old one is done with it.
    run("backup-lost", "success", [150], 1, 2, "sum", "A1 B1 C1 R H1 O I1 M1")
    run("backup-lost-before-its-turn", "success", [150], 1, 2, "classes", "A1 R O B1 C1 D1 F1")
    run("backup-lost-after-it-took", "success", [150], 1, 2, "peak", "A1 B1 C1 D1 R F1")
    run("both-lost", "success", [150, -125], 2, 3, "sum",
        "A1 B1 C1 A2 Q P E1 N1 G2 J2 N2 " + through(1) + " A2 B2 C2 R H2 O I2 M2")
    run("both-lost-at-the-end", "success", [150], 2, 1, "sum", "A1 B1 C1 D1 Q R F1")
    # The backup that a command asks for its new master is lost in turn; the command starts again with the new one.
    run("asked-backup-lost", "success", [-75], 2, 3, "classes", "A1 Q G1 P R K1 A1 B1 C1 H1 O I1 M1")
    run("seven-masters-lost", "success", [7], 7, 8, "peak", "Q P " * 7 + "A1 G1 J1 N1 " + through(1))
    run("seven-backups-lost", "success", [7], 7, 8, "sum", "R O " * 7 + through(1))
    run("lost-by-turns", "success", [8], 6, 4, "sum", "Q P R O " * 3 + "A1 G1 J1 N1 " + through(1))
    # With no place for a new card the hub neither ends nor goes on.
    run("no-place-left", "running", [5], 1, 1, "sum", "A1 Q G1")
    run("every-card-lost", "running", [5], 2, 1, "classes", "Q R A1")

    # The three ways to give up.
    run("fatal", "fatal", [150], 2, 3, "sum", "A1 Q P R G1")
    run("fatal-no-master-to-turn-to", "fatal", [150], 2, 3, "peak", "A1 Q G1 R K1")
    run("fatal-no-backup-to-ask-for", "fatal", [150], 2, 3, "sum", "A1 B1 C1 R H1 Q L1")
    run("fatal-with-one-done", "fatal", [150, -125], 2, 1, "sum", through(2) + " A1 Q R G1")
    return found


# A header with one command, of five lines, so that the first step is line 6.
SMALL = b"commands=1\nkills=0\ncards=1\nregister=sum\nmove=5\n"


def faults_14():
    """A line is not the due one."""
    found = []

    def refused(name, line, journal):
        found.append(Case(f"fault-14-{name}", journal, fault=(14, line)))

    refused("empty", 1, b"")
    refused("line-feed-alone", 1, b"\n")
    refused("carriage-return-alone", 1, b"\r")
    refused("high-bytes", 1, b"\xff\xfe\x80\n")
    refused("byte-order-mark", 1, b"\xef\xbb\xbf" + SMALL)
    refused("blank-before-key", 1, b" " + SMALL)
    refused("blank-after-key", 1, b"commands =1\n")
    refused("no-equals-sign", 1, b"commands\n")
    refused("blank-for-equals-sign", 1, b"commands 1\n")
    refused("upper-case-key", 1, b"COMMANDS=1\n")
    refused("key-too-long", 1, b"commandss=1\n")
    refused("comment", 1, b"# a batch\n" + SMALL)
    refused("first-line-twice", 2, b"commands=1\n" + SMALL)
    refused("lines-exchanged", 2, b"commands=1\ncards=1\nkills=0\nregister=sum\nmove=5\n")
    refused("register-missing", 4, b"commands=1\nkills=0\ncards=1\nmove=5\n")
    refused("empty-line-in-header", 3, b"commands=1\nkills=0\n\ncards=1\nregister=sum\nmove=5\n")
    refused("carriage-returns-only", 1, SMALL.replace(b"\n", b"\r"))
    refused("two-moves-of-three", 7, b"commands=3\nkills=0\ncards=1\nregister=sum\nmove=5\nmove=6\n")
    refused("a-move-too-many", 6, SMALL + b"move=6\n")
    refused("header-again", 7, SMALL + b"step=A1\n" + SMALL)
    refused("empty-line", 7, SMALL + b"step=A1\n\nstep=B1\n")
    refused("blank-at-the-end", 6, SMALL + b" ")
    refused("zero-byte-at-the-end", 6, SMALL + b"\x00")
    refused("high-byte-for-a-step", 6, SMALL + b"\xff\n")
    # The lowest number is given where several causes apply to a line.
    refused("before-15", 1, b"commands=0")
    refused("before-15-at-a-step", 6, SMALL + b"step=S1")
    refused("before-16", 6, SMALL + b"step=B1")
    return found


def faults_15():
    """A value is not allowed."""
    found = []
    head = SMALL.splitlines(keepends=True)

    def refused(line, values):
        """Puts each value into a line of the small journal, which goes on as if nothing were wrong."""
        before, key = b"".join(head[:line - 1]), (head[line - 1:] or [b"step="])[0].split(b"=")[0]
        for name, value in values.items():
            journal = before + key + b"=" + value + b"\n" + b"".join(head[line:])
            found.append(Case(f"fault-15-{key.decode()}-{name}", journal, fault=(15, line)))

    refused(1, {
        "empty": b"", "0": b"0", "65": b"65", "leading-zero": b"01", "minus": b"-1", "minus-zero": b"-0", "plus": b"+1",
        "blank-before": b" 1", "blank-after": b"1 ", "carriage-return": b"1\r", "hexadecimal": b"0x1", "fraction": b"1.0",
        "high-byte": b"1\xb9", "zero-byte": b"1\x00",
        # Numbers that a counter of so many bits would take for 1.
        "wraps-32-bits": b"4294967297", "wraps-64-bits": b"18446744073709551617",
        "thousands-of-digits": b"1" * 3000, "thousands-of-zeros": b"0" * 3000 + b"1",
    })
    refused(2, {"8": b"8", "minus": b"-1", "minus-zero": b"-0", "leading-zero": b"07"})
    refused(3, {"0": b"0", "9": b"9", "plus": b"+8", "wraps-64-bits": b"18446744073709551624"})
    refused(4, {
        "empty": b"", "upper-case": b"Sum", "cut": b"su", "longer": b"sums", "mean": b"mean",
        "blank-after": b"peak ", "carriage-return": b"classes\r", "high-byte": b"s\xfcm",
    })
    refused(5, {
        "empty": b"", "9001": b"9001", "minus-9001": b"-9001", "minus-zero": b"-0", "plus": b"+1", "minus-alone": b"-",
        "two-minuses": b"--1", "leading-zero": b"05", "minus-leading-zero": b"-05",
        "blank-before": b" 5", "fraction": b"1.5", "true-minus-sign": b"\xe2\x88\x925",
        "wraps-16-bits": b"65541", "wraps-32-bits": b"-4294967291", "thousands-of-digits": b"-" + b"9" * 3000,
    })
    refused(6, {
        "empty": b"", "letter-alone": b"A", "0": b"A0", "65": b"A65", "leading-zero": b"A01", "plus": b"A+1",
        "blank-before": b" A1", "blank-between": b"A 1", "blank-after": b"A1 ",
        "carriage-return": b"A1\r", "letter-before-A": b"@1", "letter-after-R": b"S1", "lower-case": b"a1",
        "two-letters": b"AB1", "high-letter": b"\xc11",
        "loss-with-number": b"Q1", "loss-with-carriage-return": b"Q\r", "new-card-with-zero": b"O0",
        "wraps-64-bits": b"A18446744073709551617", "thousands-of-digits": b"A" + b"1" * 3000,
    })

    # Later lines, and lines with the usual line ends of another system.
    found.append(Case("fault-15-carriage-return", SMALL.replace(b"\n", b"\r\n"), fault=(15, 1)))
    found.append(Case("fault-15-minus-zero", journal_of([5, "-0"], 0, 1, "sum", "A1 B1"), fault=(15, 6)))
    found.append(Case("fault-15-after-steps", SMALL + b"step=A1\nstep=B1\nstep=C\n", fault=(15, 8)))
    # The first line that is refused counts, whatever comes after it, and each line is taken only when it is reached.
    found.append(Case("fault-15-before-a-missing-line", b"commands=1\nkills=9\nregister=sum\n", fault=(15, 2)))
    found.append(Case("fault-15-before-a-refused-step", SMALL + b"step=Z\nstep=B1\n", fault=(15, 6)))
    return found


def faults_16():
    """The hub refuses a step. The line is that of the last step, unless more is said."""
    found = []

    def refused(cause, name, steps, commands=1, kills=2, cards=3, line=None):
        line = line or 4 + commands + len(steps.split())
        moves = [150 - 275 * i for i in range(commands)]
        name = f"fault-16-{name}"
        found.append(Case(name, journal_of(moves, kills, cards, "sum", steps), fault=(16, line), cause=cause))

    # 5: the hub has already succeeded or failed
    refused(5, "after-success", through(1) + " A1")
    refused(5, "after-fatal", "A1 Q P R G1 O")
    refused(5, "no-such-command-after-success", through(1) + " A64")
    # 7: there is no such command; the reader lets numbers up to 64 pass
    refused(7, "no-such-command", "A1 B1 C64")
    refused(7, "command-64-of-three", "A1 A2 A3 B64", commands=3)
    refused(7, "one-too-many", "A3", commands=2)
    # 8: the losses are used up
    refused(8, "no-losses-rated", "Q", kills=0)
    refused(8, "losses-used-up", "Q P R", kills=1)
    # 9: the command is not in the phase, or has not the message, that the step needs
    refused(9, "refused-step", "A1 B1 D1")
    refused(9, "not-started", "B1")
    refused(9, "started-twice", "A1 A1")
    refused(9, "too-early-to-finish", "A1 B1 C1 F1")
    refused(9, "done-already", through(1) + " A1", commands=2)
    refused(9, "taken-by-the-backup-twice", "A1 B1 C1 D1 D1")
    refused(9, "other-command", "A1 B2", commands=2)
    refused(9, "no-new-backup-told", "A1 M1")
    refused(9, "no-new-master-told", "A1 N1")
    # 10: a card is not active, or not lost, or there is none
    refused(10, "master-is-lost", "A1 Q B1")
    refused(10, "master-is-not-lost", "A1 G1")
    refused(10, "backup-is-lost", "A1 B1 C1 R D1")
    refused(10, "backup-is-not-lost", "A1 B1 C1 H1")
    refused(10, "asked-backup-is-lost", "A1 Q G1 P R J1")
    refused(10, "asked-backup-is-not-lost", "A1 Q G1 K1")
    refused(10, "asked-master-is-lost", "A1 B1 C1 R H1 Q I1")
    refused(10, "asked-master-is-not-lost", "A1 B1 C1 R H1 L1")
    refused(10, "no-master-to-lose", "Q Q")
    refused(10, "no-backup-to-lose", "R R")
    refused(10, "backup-still-there", "O")
    refused(10, "master-still-there", "A1 R P")
    refused(10, "no-master-to-copy", "Q R O")
    refused(10, "no-backup-to-copy", "R Q P")
    # 11: two card numbers differ, or are equal
    refused(11, "old-master", "A1 B1 C1 Q P D1")
    refused(11, "master-is-the-same", "A1 B1 C1 E1")
    refused(11, "no-new-backup-yet", "A1 B1 C1 R H1 I1")
    refused(11, "no-new-master-yet", "A1 Q G1 J1")
    # 12: there is no place for a new card
    refused(12, "no-place-for-a-master", "Q P", cards=1)
    refused(12, "no-place-for-a-backup", "R O", cards=1)
    refused(12, "no-place-for-a-third", "Q P Q P", cards=2)
    # What follows a refused step is not looked at.
    refused(9, "before-more-steps", "B1 A1 B1", line=6)
    refused(9, "before-wrong-values", "A1 F1 Z0 a", line=7)
    return found


def cuts():
    """A small header that is cut at every byte: fault 14 at the line that is cut, or at the one that is due next.
    What is left of a line's value does not matter, since 14 is tested before 15. Uncut it is a journal."""
    parts = [SMALL[:length] for length in range(len(SMALL))]
    found = [Case(f"cut-at-{len(part):02}", part, fault=(14, part.count(b"\n") + 1)) for part in parts]
    return found + [Case("not-cut", SMALL, state="running")]


class Dice:
    """Numbers that look random. Python's own may differ from version to version, and the journals must not."""

    def __init__(self, seed):
        # neighbouring seeds are spread out first
        self.now = (seed + 1) * 0x9E3779B97F4A7C15 % 2**64

    def below(self, n):
        self.now = (self.now * 6364136223846793005 + 1442695040888963407) % 2**64
        return (self.now >> 33) % n

    def of(self, things):
        return things[self.below(len(things))]


def sorted_out(hub):
    """All steps of a hub, and of a command that it lacks: those that it accepts now, and those that it refuses."""
    accepted, refused = [], []
    for letter in "ABCDEFGHIJKLMNOPQR":
        for number in range(1, len(hub.commands) + 2) if letter <= "N" else [0]:
            try:
                copy.deepcopy(hub).step(letter, number)
            except model.Denied:
                refused.append((letter, number))
            else:
                accepted.append((letter, number))
    return accepted, refused


def walk(seed):
    """A run whose steps are drawn among those that the model's hub accepts, to its end or for some forty steps.

    Losses are drawn seldom and new cards often, since a hub without cards soon has nothing to do. Each fourth walk
    ends with a step that is refused, followed, while the hub runs, by one that would have been accepted.
    """
    dice = Dice(seed)
    moves = [dice.of([0, 1, -1, 49, -50, 250, -999, 2500, 9000, -9000, dice.below(18001) - 9000])
             for _ in range(1 + dice.below(4))]
    kills, cards, register = dice.of([0, 1, 2, 2, 3, 4]), dice.of([1, 2, 3, 4, 5]), dice.of(model.KINDS)
    hub, steps = model.Hub(kills, cards, register, moves), []
    ends_refused = seed % 4 == 3
    limit = 1 + dice.below(25) if ends_refused else 40
    while hub.state == "running" and len(steps) < limit:
        accepted, _ = sorted_out(hub)
        losses = [s for s in accepted if s[0] in "QR"]
        new_cards = [s for s in accepted if s[0] in "OP"]
        others = [s for s in accepted if s[0] not in "OPQR"]
        if losses and dice.below(7) == 0:
            step = dice.of(losses)
        elif new_cards and (not others or dice.below(2)):
            step = dice.of(new_cards)
        elif others:
            step = dice.of(others)
        else:
            break
        hub.step(*step)
        steps.append(step)
    if ends_refused:
        accepted, refused = sorted_out(hub)
        steps.append(dice.of(refused))
        line = 4 + len(moves) + len(steps)
        steps += accepted[:1]
    words = " ".join(letter + (str(number) if number else "") for letter, number in steps)
    journal = journal_of(moves, kills, cards, register, words)
    if ends_refused:
        return Case(f"walk-{seed:02}", journal, fault=(16, line))
    return Case(f"walk-{seed:02}", journal, state=hub.state)


def walks():
    return [walk(seed) for seed in range(36)]


def longest_run():
    """The run with the most steps that there can be, 5·64·8 + 2·7 = 2574 of them.

    Before each of the seven losses of a master all commands come as far as the backup, which then tells them of the
    new master, so that they start again. The moves and the register's name are the longest that there are.
    """
    def each(letters):
        return " ".join(letter + str(c) for c in range(1, 65) for letter in letters)

    steps = " ".join(each("ABC") + " Q P " + each("EN") for _ in range(7)) + " " + each("ABCDF")
    return journal_of([-9000] * 64, 7, 8, "classes", steps)


def long_ones():
    """Journals up to the limit and one byte above it.

    No run fills a journal of the largest size, so the longest run is filled up with steps that come too late: the
    first of them is refused. The two lengths differ by one byte of the last line.
    """
    run = longest_run()
    filled = run + b"step=A1\n" * ((LONGEST - len(run)) // 8 - 2)
    last = LONGEST - len(filled) - len(b"step=\n")
    late = filled + b"step=" + b"A" * last + b"\n"
    too_long = filled + b"step=" + b"A" * (last + 1) + b"\n"
    assert len(late) == LONGEST and len(too_long) == LONGEST + 1
    return [
        Case("longest-run", run, state="success"),
        Case("fault-16-late", late, fault=(16, 4 + 64 + 2574 + 1), cause=5),
        Case("fault-13-too-long", too_long, fault=(13, 0)),
    ]


def groups():
    """All journals, by the file that they stand in for journal_runs."""
    found = {
        "examples": examples_by_hand(), "runs": runs(), "faults-14": faults_14(), "faults-15": faults_15(),
        "faults-16": faults_16(), "cuts": cuts(), "walks": walks(), "long": long_ones(),
    }
    names = [case.name for cases in found.values() for case in cases]
    assert len(names) == len(set(names)), "two journals have one name"
    return found


def write_folder(folder, with_expected):
    folder.mkdir(parents=True, exist_ok=True)
    for cases in groups().values():
        for case in cases:
            (folder / f"{case.name}.journal").write_bytes(case.journal)
            if with_expected:
                (folder / f"{case.name}.expected").write_text(case.expected())


def write_examples():
    for cases in groups().values():
        for case in cases:
            if case.name in AS_EXAMPLES:
                case.expected()
                (HERE / f"{case.name}.journal").write_bytes(case.journal)


def write_crate(folder):
    """Many journals go into one file: the name on a line, the length in bytes on a line, then the journal itself."""
    (folder / "data").mkdir(parents=True, exist_ok=True)
    found, shown = groups(), []
    for group, cases in found.items():
        packed = b"".join(f"{case.name}\n{len(case.journal)}\n".encode() + case.journal for case in cases)
        (folder / "data" / group).write_bytes(packed)
        shown += [f"{case.name}\n{case.expected()}" for case in cases]
    (folder / "args").write_text("".join(group + "\n" for group in found))
    (folder / "stdout").write_text("".join(shown))


def main(words):
    if words == ["--examples"]:
        write_examples()
    elif len(words) == 2 and words[0] == "--crate":
        write_crate(pathlib.Path(words[1]))
    elif len(words) == 1 and not words[0].startswith("-"):
        write_folder(pathlib.Path(words[0]), False)
    elif len(words) == 2 and words[1] == "--expected":
        write_folder(pathlib.Path(words[0]), True)
    else:
        sys.exit(__doc__)


if __name__ == "__main__":
    main(sys.argv[1:])
