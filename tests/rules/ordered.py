"""The model's hub, which also tells its order whole, from its own state: what has settled is kept as it settles, and behind it stands the
sequence with its attached events. No answer is looked at.

An item of the order is ("routine", id, committed, ((device, setting) of each done command, ..)), ("down", device) or
("up", device, setting).
"""
from model import Hub


def event_item(event):
    return ("down", event[1]) if event[0] == "failure" else ("up", event[1], event[2])


def items(routine):
    """The routine, and then its events."""
    done = tuple((c[0], c[2]) for c, answer in zip(routine.commands, routine.answers) if answer == "done")
    return [("routine", routine.id, routine.committed, done)] + [event_item(e) for e in routine.events]


class OrderedHub(Hub):
    def __init__(self, n, k, first):
        super().__init__(n, k, first)
        self.past = []  # the settled part

    def attach(self, rid, events):
        super().attach(rid, events)
        if rid == 0:
            self.past += [event_item(e) for e in events]

    def settle(self):
        before = list(self.sequence)
        super().settle()
        for routine in before[:len(before) - len(self.sequence)]:
            self.past += items(routine)

    def order(self):
        """The items, and how many of them stand before the bar."""
        return self.past + [item for routine in self.sequence for item in items(routine)], len(self.past)
