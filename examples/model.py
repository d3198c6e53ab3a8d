#!/usr/bin/env python3
"""A second opinion on the hub, written from docs/ alone and sharing no code with the crates.

    model.py report < JOURNAL      what hubreport is to print (and its status)
    model.py walk                  what the example program hub_walk is to print

It favours plainness over speed, and is not proved; the stored outputs of the examples come from it.
"""
import sys

KINDS = ("sum", "classes", "peak")
BOUNDS = (0, 50, 100, 250, 500, 1000, 2500, 5000)


class Denied(Exception):
    """A refusal: its number, and its line where one comes with it."""

    def __init__(self, number, line=0):
        self.number, self.line = number, line


def start(kind):
    return [0] * (8 if kind == "classes" else 1)


def take(kind, figures, move):
    figures, size = list(figures), abs(move)
    if kind == "sum":
        figures[0] = (figures[0] + move + 2**63) % 2**64 - 2**63
    elif kind == "peak":
        figures[0] = max(figures[0], size)
    else:
        place = max(i for i, low in enumerate(BOUNDS) if size >= low)
        figures[place] = min(figures[place] + 1, 2**32 - 1)
    return figures


class Card:
    def __init__(self, status, partner, kind):
        self.status, self.partner, self.version, self.figures = status, partner, 0, start(kind)


class Command:
    def __init__(self, move):
        self.move, self.phase, self.master, self.backup, self.message = move, "pending", 1, 0, None


class Hub:
    def __init__(self, kills, cards, kind, moves):
        self.kills, self.places, self.kind = kills, cards, kind
        self.state, self.losses, self.steps = "running", 0, 0
        self.commands = [Command(m) for m in moves]
        self.roles = {r: [Card("active", 1, kind) if i == 0 else Card("unused", 0, kind) for i in range(cards)] for r in "mb"}

    def card(self, role, number):
        table = self.roles[role]
        return table[number - 1] if 1 <= number <= len(table) else None

    def active(self, role):
        return next((i + 1 for i, c in enumerate(self.roles[role]) if c.status == "active"), None)

    def last(self, role):
        return max((i + 1 for i, c in enumerate(self.roles[role]) if c.status != "unused"), default=0)

    def last_lost(self, role):
        return max((i + 1 for i, c in enumerate(self.roles[role]) if c.status == "lost"), default=None)

    def need(self, role, number, status):
        card = self.card(role, number)
        if card is None or card.status != status:
            raise Denied(10)
        return card

    def give_up(self, c):
        c.message, c.phase, self.state = None, "gave-up", "fatal"

    def finish(self, c):
        c.message, c.phase = None, "done"
        if all(x.phase == "done" for x in self.commands):
            self.state = "success"

    def send(self, c, kind, m, b=0):
        c.message, c.phase = (kind, m, b), "working"

    def restart(self, c, m):
        c.master, c.message, c.phase = m, None, "pending"

    def step(self, letter, number):
        if self.state != "running":
            raise Denied(5)
        if not "A" <= letter <= "R":
            raise Denied(6)
        if (letter <= "N" and not 1 <= number <= len(self.commands)) or (letter > "N" and number != 0):
            raise Denied(7)
        if letter in "QR" and self.losses == self.kills:
            raise Denied(8)
        if letter <= "N":
            self.of_command(letter, self.commands[number - 1])
        elif letter in "OP":
            self.rebuild("m" if letter == "O" else "b", "b" if letter == "O" else "m")
        else:
            role = "m" if letter == "Q" else "b"
            a = self.active(role)
            if a is None:
                raise Denied(10)
            self.card(role, a).status = "lost"
            self.losses += 1
        self.steps += 1

    def rebuild(self, maker, made):
        a, l = self.active(maker), self.last_lost(made)
        if a is None or self.active(made) is not None or l is None:
            raise Denied(10)
        if l + 1 > self.places:
            raise Denied(12)
        old, new = self.card(maker, a), self.card(made, l + 1)
        new.status, new.partner, new.version, new.figures = "active", a, old.version, list(old.figures)
        old.partner = l + 1

    def of_command(self, letter, c):
        wanted = dict(zip("BCDEFGHIJKLMN", "masterDo masterDone backupDo backupDo backupDone masterDo backupDo masterGetNewBackup backupGetNewMaster backupGetNewMaster masterGetNewBackup newBackupId newMasterId".split()))
        if letter == "A":
            if c.phase != "pending":
                raise Denied(9)
            return self.send(c, "masterDo", c.master)
        if c.message is None or c.message[0] != wanted[letter]:
            raise Denied(9)
        _, m, b = c.message
        if letter == "B":
            card = self.need("m", m, "active")
            card.version, card.figures = card.version + 1, take(self.kind, card.figures, c.move)
            self.send(c, "masterDone", m, card.partner)
        elif letter == "C":
            c.backup = b
            self.send(c, "backupDo", m, b)
        elif letter in "DE":
            card = self.need("b", b, "active")
            if (card.partner == m) != (letter == "D"):
                raise Denied(11)
            if letter == "D":
                card.version, card.figures = card.version + 1, take(self.kind, card.figures, c.move)
                self.send(c, "backupDone", m, b)
            else:
                self.send(c, "newMasterId", card.partner, b)
        elif letter == "F":
            self.finish(c)
        elif letter == "G":
            self.need("m", m, "lost")
            d = self.active("b")
            self.give_up(c) if d is None else self.send(c, "backupGetNewMaster", c.master, d)
        elif letter == "H":
            self.need("b", b, "lost")
            self.send(c, "masterGetNewBackup", c.master, c.backup)
        elif letter in "IJ":
            role, number, other = ("m", m, b) if letter == "I" else ("b", b, m)
            card = self.need(role, number, "active")
            if card.partner == other:
                raise Denied(11)
            self.send(c, *(("newBackupId", m, card.partner) if letter == "I" else ("newMasterId", card.partner, b)))
        elif letter == "K":
            self.need("b", b, "lost")
            a = self.active("m")
            if a is None:
                self.give_up(c)
            elif a == c.master:
                raise Denied(11)
            else:
                self.restart(c, a)
        elif letter == "L":
            self.need("m", m, "lost")
            self.give_up(c)
        elif letter == "M":
            c.backup = b
            self.finish(c)
        else:
            self.restart(c, m)

    def look(self):
        m, b = self.last("m"), self.last("b")
        done = sum(c.phase == "done" for c in self.commands)
        return self.state, self.steps, self.losses, done, m, self.card("m", m).version, b, self.card("b", b).version


def number_of(text, low, high, minus=False):
    """A number in the form of a journal, or None."""
    digits = text[1:] if minus and text[:1] == b"-" else text
    if not digits or any(d not in b"0123456789" for d in digits) or (len(digits) > 1 and digits[:1] == b"0"):
        return None
    value = int(digits[:9]) if len(digits) <= 9 else 10**9
    value = -value if digits != text else value
    if digits != text and value == 0:
        return None
    return value if low <= value <= high else None


def replay(journal):
    """The hub after the whole journal; raises Denied with its line."""
    if len(journal) > 65536:
        raise Denied(13)
    at, line = 0, 0

    def value(key):
        nonlocal at, line
        line += 1
        end = journal.find(b"\n", at)
        if end < 0 or not journal.startswith(key + b"=", at) or at + len(key) + 1 > end:
            raise Denied(14, line)
        text, at = journal[at + len(key) + 1:end], end + 1
        return text

    def number(key, low, high, minus=False):
        n = number_of(value(key), low, high, minus)
        if n is None:
            raise Denied(15, line)
        return n

    commands, kills, cards = number(b"commands", 1, 64), number(b"kills", 0, 7), number(b"cards", 1, 8)
    kind = value(b"register").decode("latin-1")
    if kind not in KINDS:
        raise Denied(15, line)
    hub = Hub(kills, cards, kind, [number(b"move", -9000, 9000, True) for _ in range(commands)])
    while at < len(journal):
        text = value(b"step")
        letter = text[:1].decode("latin-1")
        if letter == "" or not "A" <= letter <= "R":
            raise Denied(15, line)
        command = (0 if text[1:] == b"" else None) if letter > "N" else number_of(text[1:], 1, 64)
        if command is None:
            raise Denied(15, line)
        try:
            hub.step(letter, command)
        except Denied:
            raise Denied(16, line)
    return hub


def mean(total, version):
    if version == 0:
        return "none"
    size = (2 * abs(total) + version) // (2 * version)
    return str(-size if total < 0 else size)


def report(hub):
    out = [f"state={hub.state}", f"steps={hub.steps}", f"losses={hub.losses}"]
    for role, name in (("m", "master"), ("b", "backup")):
        last = hub.last(role)
        card = hub.card(role, last)
        out += [f"{name}={last}", f"{name}-version={card.version if card else 0}", f"{name}-register=" + (",".join(map(str, card.figures)) if card else "none")]
    master = hub.card("m", hub.last("m"))
    out.append("mean=" + (mean(master.figures[0], master.version) if hub.kind == "sum" and master else "none"))
    return "".join(line + "\n" for line in out)


def walk():
    """Two commands, moves 150 and -125; a master is lost while both are under way."""
    hub = Hub(1, 2, "sum", [150, -125])
    for name in "A1 B1 C1 A2 Q P Q E1 N1 G2 J2 N2 A1 B1 C1 D1 F1 A2 B2 C2 D2 F2".split():
        letter, number = name[0], int(name[1:] or 0)
        try:
            hub.step(letter, number)
            print(f"{letter}{number}: stepped")
        except Denied as d:
            print(f"{letter}{number}: refused {d.number}")
        state, steps, losses, done, m, mv, b, bv = hub.look()
        print(f"  {state}, {steps} steps, {losses} losses, {done} done, master {m} version {mv}, backup {b} version {bv}")


if __name__ == "__main__":
    if sys.argv[1:] == ["walk"]:
        walk()
    else:
        try:
            print(report(replay(sys.stdin.buffer.read())), end="")
        except Denied as d:
            print(f"fault={d.number}\nline={d.line}")
            sys.exit(1)
