"""The scenarios and edits that the benchmark runs: a full charger, a calm one, and shorter ones of the full one's kind."""
import json
import random

SECOND = 1_000_000
MINUTES_2 = 120 * SECOND
PORTS, ROUNDS = 8, 64
SUPPLIES = [(5_000, 3_000), (9_000, 3_000), (15_000, 3_000), (20_000, 5_000)]
CABLES = {"bare": ("none", 3000), "strong": ("ack", 5000), "shy": ("nak", 3000), "slow": ("busy", 3000)}
SINKS = {"phone": (5_000, 15_000), "tablet": (9_000, 18_000), "laptop": (20_000, 60_000), "station": (20_000, 90_000)}
# An id that no scenario here uses.
SPARE = 900_000
SHOWS = ("transcript 1", "contracts", "faults", "margins")


def table(kind, keys):
    return "".join([f"[[{kind}]]\n", *(f"{key} = {json.dumps(value)}\n" for key, value in keys.items())])


def charger(end, events):
    """A file: eight equal ports that share 400 W, four cables, four sinks, and the events."""
    parts = [f"version = 2\nend = {end}\nbudget = 400000\n"]
    parts += [table("port", {"floor": 2_500, "supplies": SUPPLIES})] * PORTS
    parts += [table("cable", {"name": name, "plug": plug, "rating": rating}) for name, (plug, rating) in CABLES.items()]
    parts += [table("sink", {"name": name, "max": most, "demand": demand}) for name, (most, demand) in SINKS.items()]
    parts += [table("event", {"id": number, **event}) for number, event in enumerate(events, 1)]
    return "".join(parts)


def guest(lots, start, port):
    """The events of a device that comes, asks for this and that over a line that disturbs it, and goes."""
    def at(time, kind, **keys):
        return {"at": start + time, "port": port, "kind": kind, **keys}

    return [
        at(0, "attach", cable=lots.choice(list(CABLES)), sink=lots.choice(list(SINKS))),
        at(400_000, "get_source"),
        at(600_000, "demand", mw=lots.randint(50, 99_999)),
        at(600_500, "lose"),
        at(900_000, "damage", place=lots.randint(0, 68), mask=lots.randint(1, 31)),
        at(1_000_000, "get_sink"),
        at(1_300_000, "demand", mw=10_000),
        at(1_700_000, "detach"),
    ]


def full(part=1.0):
    """A part of the full scenario: two minutes in which 64 guests come to each port, 4,095 events in all; one event is spared for an edit."""
    lots = random.Random("full")
    rounds = int(ROUNDS * part)
    period = MINUTES_2 // ROUNDS
    visits = [guest(lots, number * period + lots.randrange(1_000), port) for port in range(1, PORTS + 1) for number in range(rounds)]
    return charger(rounds * period, [event for visit in visits for event in visit][:-1])


def calm():
    """Two minutes in which one guest stays at each port."""
    return charger(MINUTES_2, [{"at": 0, "port": port, "kind": "attach", "cable": "strong", "sink": "tablet"} for port in range(1, PORTS + 1)])


def edits(end):
    """By kind of edit: a function from a number to an edit. None of them leads back to one of the two runs before it."""
    def wandering(time, step, kind):
        """An event is put in, moved on eight times and taken out, on one port after the other."""
        def edit(n):
            at, place = time + n * step, n % 10
            if place == 9:
                return f"remove {SPARE}"
            return f"move {SPARE} {at}" if place else f"insert {SPARE} {at} {1 + n // 10 % PORTS} {kind}"
        return edit

    def offers(n):
        """A port comes to have two, three and all four of its supplies, one port after the other."""
        supplies = " ".join(f"{mv} {ma}" for mv, ma in SUPPLIES[:2 + n % 3])
        return f"caps {1 + n // 3 % PORTS} {supplies}"

    plugs, ratings = ("ack", "nak", "busy"), (3_000, 5_000)
    return {
        "late: a packet is lost in the last 0.2 s": wandering(end - 200_000, 1, "lose"),
        "early: a packet is lost after 2.3 s": wandering(2_300_000, 1, "lose"),
        "middle: a packet is lost half-way": wandering(end // 2, 100, "lose"),
        "port: a device leaves after 1 s, until the next comes": wandering(SECOND, 1, "detach"),
        "cable: one that nobody uses is another": lambda n: f"cable spare {plugs[n % 3]} {ratings[n % 2]}",
        "budget: less by a mW": lambda n: f"budget {399_999 - n}",
        "caps: other supplies of a port": offers,
    }


def script(edit, count):
    """An edit script of so many edits."""
    return "".join(f"{edit(n)}\n" for n in range(count))
