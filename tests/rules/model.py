"""The hub of document 01 and, where a request changed it, document 02, written from the documents alone: the order is kept as a list
(of the settled part its settings, in order), and due settings are read off it each time.

A call is a tuple: ("submit", [(device, tag, setting), ..]), ("turn", id), ("report", id, code), ("failure", device),
("restart", device, setting), ("cancel", id), ("limit", k). An answer is a tuple that begins with the word that the document prints.
"""

LAST_ID = 4294967295

MUST, BEST_EFFORT, CONDITION = 0, 1, 2


class Refused(Exception):
    def __init__(self, number, index=None):
        super().__init__(number, index)
        self.answer = ("refused", number) if index is None else ("refused", number, index)


class Routine:
    def __init__(self, rid, commands):
        self.id = rid
        self.commands = commands
        self.answers = [None] * len(commands)  # "done", "skipped", of a condition "held" or "not held"; None: left
        self.flight = None  # the due setting when the command now in flight was sent
        self.committed = False
        self.passed = 0
        self.events = []  # ("failure", device) or ("restart", device, setting)

    def next(self):
        """The place of the first command left: the one in flight, if one is."""
        return self.answers.index(None) if None in self.answers else None

    def left(self, device):
        """The places of the commands on the device that are not answered."""
        return [i for i, c in enumerate(self.commands) if c[0] == device and self.answers[i] is None]

    def has_done(self, device):
        return any(c[0] == device and a == "done" for c, a in zip(self.commands, self.answers))

    def deciding_tag(self, place):
        """Where the device is down or has an event. Document 02, item 4: a condition has the tag of the command after it."""
        tag = self.commands[place][1]
        return self.commands[place + 1][1] if tag == CONDITION else tag

    def is_dropped(self, place):
        """The command follows a condition that did not hold or was skipped (document 02, item 4)."""
        return place > 0 and self.commands[place - 1][1] == CONDITION and self.answers[place - 1] in ("not held", "skipped")

    def begun(self, device):
        return self.on_its_way(device) or any(c[0] == device and a is not None for c, a in zip(self.commands, self.answers))

    def finished(self, device):
        return not self.left(device)

    def on_its_way(self, device):
        return self.flight is not None and self.commands[self.next()][0] == device

    def answer_next(self, answer):
        self.answers[self.next()] = answer
        self.flight = None

    def skip_left(self, device):
        """Document 02, item 3: what is left on the device is skipped, one in flight included."""
        if self.on_its_way(device):
            self.flight = None
        for i in self.left(device):
            self.answers[i] = "skipped"

    def effects(self):
        done = [(c[0], c[2]) for c, a in zip(self.commands, self.answers) if a == "done"]
        return done + restarts(self.events)


def restarts(events):
    return [(e[1], e[2]) for e in events if e[0] == "restart"]


class Hub:
    def __init__(self, n, k, first):
        if not 1 <= n <= 32:
            raise Refused(1)
        if k > 8:
            raise Refused(2)
        if first == 0:
            raise Refused(3)
        self.n, self.k, self.next_id = n, k, first
        self.settled = []  # (device, setting) of the settled part, in order
        self.sequence = []
        self.up = [True] * n
        self.mark = [0] * n

    # ---- what is read off the order

    def due(self, device):
        setting = 0
        for d, s in self.settled + [e for r in self.sequence for e in r.effects()]:
            if d == device:
                setting = s
        return setting

    def lines(self):
        return [self.due(d) if self.up[d] else None for d in range(self.n)]

    def settings(self, lent):
        """Document 02, item 14: all due settings, over the first entries of a lent list."""
        if len(lent) < self.n:
            raise Refused(21)
        lent[:self.n] = [self.due(d) for d in range(self.n)]

    def running(self, rid):
        for r in self.sequence:
            if r.id == rid and not r.committed:
                return r
        raise Refused(10)

    def awaited(self, r, device, tag):
        """The id that a command of the routine waits on, if it waits. Document 02, item 4: a condition has two causes to wait."""
        for o in self.sequence[:self.sequence.index(r)]:
            if not o.committed and (not o.finished(device) or tag == CONDITION and o.has_done(device)):
                return o.id
        return None

    # ---- changes that several calls share

    def attach(self, rid, events):
        if rid == 0:
            self.settled += restarts(events)
        else:
            next(r for r in self.sequence if r.id == rid).events += events

    def abort(self, r):
        before = [self.due(d) for d in range(self.n)]
        at = self.sequence.index(r)
        heir = self.sequence[at - 1].id if at > 0 else 0
        self.sequence.remove(r)
        self.mark = [heir if m == r.id else m for m in self.mark]
        self.attach(heir, r.events)
        back = []
        for d in range(self.n):
            others = any(o.on_its_way(d) for o in self.sequence)
            if self.up[d] and not others and (self.due(d) != before[d] or r.on_its_way(d)):
                back.append((d, self.due(d)))
        return ("aborted", r.id, back)

    def settle(self):
        while self.sequence and self.sequence[0].committed:
            r = self.sequence.pop(0)
            self.settled += r.effects()
            self.mark = [0 if m == r.id else m for m in self.mark]

    # ---- the calls

    def call(self, call):
        try:
            answers = getattr(self, call[0])(*call[1:])
        except Refused as refusal:
            return [refusal.answer]
        self.settle()
        return answers

    def submit(self, commands):
        if not 1 <= len(commands) <= 8:
            raise Refused(4)
        for i, (device, tag, setting) in enumerate(commands):
            if device >= self.n:
                raise Refused(5, i)
            if not -1000 <= setting <= 1000:
                raise Refused(6, i)
            if tag > CONDITION:
                raise Refused(7, i)
            if tag == CONDITION and (i + 1 == len(commands) or commands[i + 1][1] == CONDITION):
                raise Refused(22, i)
        if len(self.sequence) >= 16:
            raise Refused(8)
        if self.next_id > LAST_ID:
            raise Refused(9)
        new = Routine(self.next_id, commands)
        self.next_id += 1
        marks = {self.mark[c[0]] for c in commands}
        at = 0
        for i, r in enumerate(self.sequence):
            if r.id in marks or (not r.committed and r.passed >= self.k):
                at = i + 1
        after = self.sequence[at - 1].id if at > 0 else 0
        self.sequence.insert(at, new)
        for r in self.sequence[at + 1:]:
            if not r.committed:
                r.passed += 1
        return [("placed", new.id, after)]

    def turn(self, rid):
        r = self.running(rid)
        if r.flight is not None:
            raise Refused(11)
        if r.next() is None:
            r.committed = True
            return [("committed", r.id)]
        place = r.next()
        device, tag, setting = r.commands[place]
        on = self.awaited(r, device, tag)
        if on is not None:
            return [("wait", r.id, on)]
        dropped = r.is_dropped(place)
        if not dropped and not self.up[device] and r.deciding_tag(place) == MUST:
            return [self.abort(r)]
        if not r.begun(device):
            self.mark[device] = r.id
        if dropped or not self.up[device]:
            r.answer_next("skipped")
            return [("skipped", r.id, [])]
        if tag == CONDITION:
            outcome = "not held" if self.due(device) < setting else "held"
            r.answer_next(outcome)
            return [(outcome, r.id)]
        r.flight = self.due(device)
        return [("send", r.id, (device, tag, setting))]

    def report(self, rid, code):
        r = self.running(rid)
        if r.flight is None:
            raise Refused(12)
        if code > 1:
            raise Refused(13)
        device, tag, setting = r.commands[r.next()]
        if code == 0:
            r.answer_next("done")
            return [("done", r.id)]
        if tag == MUST:
            return [self.abort(r)]
        then = r.flight
        r.answer_next("skipped")
        back = [] if self.due(device) == then else [(device, self.due(device))]
        return [("skipped", r.id, back)]

    def cancel(self, rid):
        return [self.abort(self.running(rid))]

    def limit(self, k):
        """Document 02, item 13: K becomes another. Every routine keeps its count."""
        if k > 8:
            raise Refused(2)
        self.k = k
        return [("limited", k)]

    def event(self, device, event, word):
        answers = []
        for r in [r for r in self.sequence if not r.committed and r.begun(device) and not r.finished(device)]:
            if any(r.deciding_tag(i) == MUST for i in r.left(device)):
                answers.append(self.abort(r))
            else:
                r.skip_left(device)
        after = self.mark[device]
        self.attach(after, [event])
        return answers + [(word, device, after)]

    def failure(self, device):
        if device >= self.n:
            raise Refused(14)
        if not self.up[device]:
            raise Refused(15)
        self.up[device] = False
        return self.event(device, ("failure", device), "down")

    def restart(self, device, setting):
        if device >= self.n:
            raise Refused(14)
        if self.up[device]:
            raise Refused(16)
        if not -1000 <= setting <= 1000:
            raise Refused(17)
        answers = self.event(device, ("restart", device, setting), "up")
        self.up[device] = True
        return answers
