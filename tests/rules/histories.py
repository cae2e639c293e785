"""Random histories of a hub: an opening and calls, most of them fitting and some odd, with the answers of the model and its hub
after them."""
from model import CONDITION, Hub, LAST_ID

CALLS = 60

# Weights of submission, turn, report, cancel, failure, restart, and a call that is odd.
WEIGHTS = [[12, 40, 34, 3, 3, 4, 2], [10, 40, 34, 8, 1, 2, 1], [14, 34, 26, 3, 8, 12, 2], [60, 20, 10, 1, 1, 2, 3]]

# The same where devices fail and restart under routines that are amid them (document 02, item 3).
LAMP_WEIGHTS = [14, 44, 22, 1, 10, 7, 2]
LAMPS = 0.4

# How likely a history has conditions (document 02, item 4), how likely a command then follows one, how likely a routine has one more
# anywhere, and how likely a scene begins.
CONDITIONS = 0.6
FOLLOWS = [0.2, 0.4, 0.7]
ANYWHERE = 0.04
SCENES = 0.05

SETTINGS = [-1000, -3, 0, 5, 5, 70, 1000]
NUMBERS = [-1000, -3, -2, 0, 0, 1, 5, 5, 6, 70, 1000]

MOST_COMMANDS = 8


def history(rng, limits=0):
    """`limits`: how likely each call is a new pass limit (document 02, item 13)."""
    n = rng.choice([1, 2, 2, 3, 3, 4, 32])
    k = rng.choice([0, 1, 2, 3, 8])
    first = rng.choice([1] * 9 + [LAST_ID - 9])
    weights = rng.choice(WEIGHTS + 3 * WEIGHTS[3:] if limits else WEIGHTS)
    devices = rng.choice([min(n, 4)] * 3 + [n])
    lamps = rng.random() < LAMPS
    if lamps:
        weights = LAMP_WEIGHTS
    conditions = rng.choice(FOLLOWS) if rng.random() < CONDITIONS else 0
    hub = Hub(n, k, first)
    calls, answers, lost, planned = [], [], [], []
    for _ in range(CALLS):
        if conditions and devices > 1 and not planned and rng.random() < SCENES:
            planned = scene(rng, devices)
        if planned and rng.random() < 0.9:
            call = of_newest(planned.pop(0), hub)
        elif limits and rng.random() < limits:
            call = new_limit(rng)
        elif lost and rng.random() < 0.3:
            call = ("report", lost.pop(rng.randrange(len(lost))), rng.randrange(2))
        else:
            call = any_call(rng, hub, devices, weights, lamps, conditions)
        flying = [r for r in hub.sequence if r.flight is not None]
        calls.append(call)
        answers.append(hub.call(call))
        if call[0] == "failure":
            # Their command in flight was skipped: a report on it may still come, late.
            lost += [r.id for r in flying if r.flight is None for _ in range(2)]
    return (n, k, first), calls, answers, hub


def new_limit(rng):
    return ("limit", rng.choice([0, 1, 1, 2, 2, 3, 5, 8, 8, 9, 255]))


def pick(rng, fitting, hub):
    """An id that fits, most of the time; else any of the sequence, 0, or one not given yet."""
    if fitting and rng.random() < 0.95:
        return rng.choice(fitting).id
    return rng.choice([r.id for r in hub.sequence] + [0, hub.next_id])


def commands(rng, devices, lamps):
    if lamps:
        # Two or three devices, so that they come again in the routine; most are best-effort.
        used = [rng.randrange(devices) for _ in range(rng.choice([2, 2, 3]))]
        must = rng.choice([0, 0.1, 0.3])
        count = rng.choice([2, 3, 4, 5, 8])
        return [(rng.choice(used), int(rng.random() >= must), rng.choice(SETTINGS)) for _ in range(count)]
    return [(rng.randrange(devices), rng.randrange(2), rng.choice(SETTINGS)) for _ in range(rng.choice([1, 1, 2, 2, 3, 4, 8]))]


def condition(rng, hub, devices, plain):
    """On a device that a routine of the sequence has set, a committed one or any, on one of the routine's own, or on any."""
    own = [c[0] for c in plain]
    done = [d for d in range(devices) if any(r.has_done(d) for r in hub.sequence)] or own
    committed = [d for d in range(devices) if any(r.committed and r.has_done(d) for r in hub.sequence)] or done
    device = rng.choice(rng.choice([committed, done, own, own, range(devices)]))
    return (device, CONDITION, rng.choice(NUMBERS))


def with_conditions(rng, hub, devices, plain, likely):
    """A condition before some of the commands, where the routine has room for it; rarely one anywhere, so that it may be refused."""
    mixed = []
    for i, command in enumerate(plain):
        if rng.random() < likely and len(mixed) + len(plain) - i < MOST_COMMANDS:
            mixed.append(condition(rng, hub, devices, plain))
        mixed.append(command)
    if likely and rng.random() < ANYWHERE:
        mixed.insert(rng.randint(0, len(mixed)), condition(rng, hub, devices, plain))
    return mixed


def scene(rng, devices):
    """A routine that goes on running, one behind it that sets a device and mostly commits, and a condition on that device; now and then the
    device of the command after it fails between the two."""
    first, second = rng.sample(range(devices), 2)
    s = [rng.choice(SETTINGS) for _ in range(4)]
    reports = ["D", "N"] + ["D", "N"] * (rng.random() < 0.7)
    asked = (rng.choice([first, second, second, second]), CONDITION, rng.choice(NUMBERS))
    after = (rng.randrange(devices), rng.randrange(2), s[3])
    failure = [("failure", after[0])] * (rng.random() < 0.4)
    return [("submit", [(first, 0, s[0])]), "N", "D", ("submit", [(first, 1, s[1]), (second, 0, s[2])]), "N"] + reports + [
            ("submit", [asked, after]), "N"] + failure + ["N"]


def of_newest(planned, hub):
    """A planned call; a letter is one on the routine that was placed last."""
    newest = hub.next_id - 1
    return {"N": ("turn", newest), "D": ("report", newest, 0)}[planned] if planned in ("N", "D") else planned


def event_device(rng, hub, devices, up, lamps):
    """A device that is up, or down; with lamps mostly one that a routine has begun and not finished."""
    fitting = [d for d in range(devices) if hub.up[d] == up]
    amid = [d for d in fitting if any(not r.committed and r.begun(d) and not r.finished(d) for r in hub.sequence)]
    if lamps and amid and rng.random() < 0.8:
        return rng.choice(amid)
    return rng.choice(fitting or [0])


def any_call(rng, hub, devices, weights, lamps, conditions):
    running = [r for r in hub.sequence if not r.committed]
    flying = [r for r in running if r.flight is not None]
    kind = rng.choices(["submit", "turn", "report", "cancel", "failure", "restart", "odd"], weights)[0]
    if not running and kind in ("turn", "cancel") and rng.random() < 0.9:
        kind = "submit"
    if not flying and kind == "report" and rng.random() < 0.9:
        kind = "turn"
    if kind == "submit":
        return ("submit", with_conditions(rng, hub, devices, commands(rng, devices, lamps), conditions))
    if kind == "turn":
        still = [r for r in running if r.flight is None]
        free = [r for r in still if r.next() is not None and hub.awaited(r, *r.commands[r.next()][:2]) is None]
        return ("turn", pick(rng, free if conditions and free and rng.random() < 0.4 else still, hub))
    if kind == "report":
        return ("report", pick(rng, flying, hub), rng.choice([0, 0, 0, 1]))
    if kind == "cancel":
        return ("cancel", pick(rng, running, hub))
    if kind == "failure":
        return ("failure", event_device(rng, hub, devices, True, lamps) if lamps else rng.randrange(devices))
    if kind == "restart":
        return ("restart", event_device(rng, hub, devices, False, lamps), rng.choice([0, 5, 70, -3, 15]))
    return rng.choice([
        ("submit", []), ("submit", [(0, 0, 1)] * 9), ("submit", [(0, 0, 1), (hub.n, 0, 1)]), ("submit", [(0, 0, 1001)]),
        ("submit", [(0, 3, 1)]), ("submit", [(40, 9, -1001)]), ("report", pick(rng, flying, hub), 2), ("failure", hub.n),
        ("restart", hub.n, 1), ("restart", rng.randrange(devices), 1001), ("cancel", 0), ("submit", [(0, 0, 1), (0, 2, 1)]),
        ("submit", [(0, 2, 1), (hub.n, 2, 1001)]), ("submit", [(0, 2, 1), (0, 3, 1)]), ("submit", [(0, 2, 1001)]),
    ])
