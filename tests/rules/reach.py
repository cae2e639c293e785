"""What conditions bring (document 02, item 4), as histories reach it."""
from collections import Counter

from model import CONDITION, Hub, MUST

WANTED = [
    "held", "not held", "due setting at the number", "held or not behind a committed routine that set the device",
    "waits for an unfinished device", "waits for a done setting alone", "waits with its device down",
    "skipped, its device down", "aborts, its device down", "skipped by a failure", "skipped by a restart", "aborts by an event",
    "the command after waits", "the command after skipped, a must, its device up", "the command after skipped, a must, its device down",
    "the command after skipped, a best-effort, its device up", "the command after skipped, a best-effort, its device down",
    "the command after a skipped condition skipped, its device up", "refused 7", "refused 22",
]


def reached(opening, calls):
    """How often the calls reach each of these."""
    hub, counts = Hub(*opening), Counter()
    for call in calls:
        counts.update(of_call(hub, call))
    return counts


def of_call(hub, call):
    """Makes the call, and names what it reaches."""
    if call[0] == "turn":
        found = of_turn(hub, call[1])
    elif call[0] in ("failure", "restart"):
        found = of_event(hub, call)
    else:
        found = []
    answer = hub.call(call)[0]
    return [f"refused {answer[1]}"] if answer[0] == "refused" else found


def running(hub):
    return [r for r in hub.sequence if not r.committed]


def of_turn(hub, rid):
    for r in running(hub):
        if r.id == rid and r.flight is None and r.next() is not None:
            break
    else:
        return []
    place = r.next()
    device, tag, setting = r.commands[place]
    ahead = hub.sequence[:hub.sequence.index(r)]
    up = hub.up[device]
    waits = hub.awaited(r, device, tag) is not None
    if tag == CONDITION and waits:
        unfinished = any(not o.committed and not o.finished(device) for o in ahead)
        found = ["waits for an unfinished device" if unfinished else "waits for a done setting alone"]
        return found + ["waits with its device down"] * (not up)
    if tag == CONDITION and not up:
        return ["aborts, its device down" if r.deciding_tag(place) == MUST else "skipped, its device down"]
    if tag == CONDITION:
        found = ["not held" if hub.due(device) < setting else "held"]
        if hub.due(device) == setting:
            found.append("due setting at the number")
        if any(o.has_done(device) for o in ahead):
            found.append("held or not behind a committed routine that set the device")
        return found
    if r.is_dropped(place) and waits:
        return ["the command after waits"]
    if r.is_dropped(place):
        word = "must" if tag == MUST else "best-effort"
        found = [f"the command after skipped, a {word}, its device {'up' if up else 'down'}"]
        if up and r.answers[place - 1] == "skipped":
            found.append("the command after a skipped condition skipped, its device up")
        return found
    return []


def of_event(hub, call):
    for r in running(hub):
        conditions = [i for i in r.left(call[1]) if r.commands[i][1] == CONDITION]
        if conditions and r.begun(call[1]):
            aborts = any(r.deciding_tag(i) == MUST for i in r.left(call[1]))
            return ["aborts by an event"] if aborts else [f"skipped by a {call[0]}"] * len(conditions)
    return []
