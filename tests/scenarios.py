"""Scenarios and edits as docs/FORMATS.md has them, apart from the program: reading and writing files, making edits, drawing lots."""
import copy
import json
import re

LAST = 120_000_000
RANGES = {"id": (1, 1_000_000, 1), "at": (0, LAST, 1), "budget": (500, 1_000_000, 1), "floor": (500, 100_000, 1),
          "demand": (50, 100_000, 1), "mv": (5_000, 20_000, 50), "ma": (10, 5_000, 10), "place": (0, 68, 1), "mask": (1, 31, 1)}
PLUGS, MODES = ("none", "ack", "nak", "busy", "silent"), ("pd", "plain", "greedy")
# The numbers that a kind of event carries, by what they are; an attach carries two names.
NUMBERS = {"detach": (), "demand": ("demand",), "lose": (), "damage": ("place", "mask"), "get_source": (), "get_sink": (), "budget": ("budget",)}
KEYS = {"attach": ("cable", "sink"), "demand": ("mw",), "damage": ("place", "mask"), "budget": ("mw",)}
LINES = ("insert", "remove", "move", "change", "cable", "sink", "caps", "floor", "budget", "end")
MOST_NAMES, MOST_EVENTS = 64, 4_096


def fits(what, number):
    least, most, step = RANGES[what]
    return least <= number <= most and number % step == 0


class Scenario:
    """A charger: `events` leads from an id to a time, a port (none of a change of the budget) and a kind with what it carries."""

    def __init__(self):
        self.end, self.budget, self.ports, self.cables, self.sinks, self.events = 1_000_000, 60_000, [], {}, {}, {}

    @staticmethod
    def read(text):
        """Reads a file of the forms that the examples have: a key and a value a line."""
        found, table = Scenario(), None
        tables = {"port": [], "cable": [], "sink": [], "event": []}
        top = {}
        for line in text.splitlines():
            if head := re.fullmatch(r"\[\[(\w+)\]\]", line):
                table = {}
                tables[head[1]].append(table)
            elif pair := re.fullmatch(r"(\w+) = (.*)", line):
                (top if table is None else table)[pair[1]] = json.loads(pair[2])
        found.end, found.budget = top["end"], top["budget"]
        for port in tables["port"]:
            found.ports.append({"floor": port["floor"], "supplies": [tuple(pair) for pair in port["supplies"]],
                                "tries": port.get("identity_tries", 3), "unconstrained": port.get("unconstrained", False)})
        found.cables = {cable["name"]: (cable["plug"], cable["rating"]) for cable in tables["cable"]}
        found.sinks = {sink["name"]: (sink["max"], sink["demand"], sink.get("mode", "pd"), sink.get("revision", 3)) for sink in tables["sink"]}
        for event in tables["event"]:
            kind = (event["kind"], *(event[key] for key in KEYS.get(event["kind"], ())))
            found.events[event["id"]] = (event["at"], event.get("port"), kind)
        return found

    def written(self, lots):
        """The file of this scenario, its tables of one kind in an order that is drawn by lot."""
        newer = any(port is None for _, port, _ in self.events.values()) or any(sink[3] == 2 for sink in self.sinks.values())
        version = 2 if newer else lots.choice((1, 2))
        lines = [f"version = {version}", f"end = {self.end}", f"budget = {self.budget}"]
        for port in self.ports:
            lines += ["[[port]]", f"floor = {port['floor']}", f"supplies = {json.dumps(port['supplies'])}",
                      f"identity_tries = {port['tries']}", f"unconstrained = {json.dumps(port['unconstrained'])}"]
        for name, (plug, rating) in shuffled(lots, self.cables.items()):
            lines += ["[[cable]]", f'name = "{name}"', f'plug = "{plug}"', f"rating = {rating}"]
        for name, (most, demand, mode, revision) in shuffled(lots, self.sinks.items()):
            lines += ["[[sink]]", f'name = "{name}"', f"max = {most}", f"demand = {demand}", f'mode = "{mode}"']
            lines += [f"revision = {revision}"] * (version == 2)
        for number, (at, port, (kind, *carried)) in shuffled(lots, self.events.items()):
            lines += ["[[event]]", f"id = {number}", f"at = {at}", f'kind = "{kind}"']
            lines += [f"port = {port}"] * (port is not None)
            lines += [f"{key} = {json.dumps(value)}" for key, value in zip(KEYS.get(kind, ()), carried)]
        return "".join(f"{line}\n" for line in lines)

    def floors_fit(self):
        budgets = [self.budget, *(kind[1] for _, _, kind in self.events.values() if kind[0] == "budget")]
        return sum(port["floor"] for port in self.ports) <= min(budgets)

    # What an edit may be refused for, in words of the file, and the scenario after it.

    def has_port(self, port):
        return 1 <= port <= len(self.ports)

    def kind_faults(self, kind):
        if kind[0] == "attach":
            return {24} if kind[1] not in self.cables or kind[2] not in self.sinks else set()
        return {26 for what, number in zip(NUMBERS[kind[0]], kind[1:]) if not fits(what, number)}

    def insert(self, number, at, port, *kind):
        faults = self.kind_faults(kind)
        faults |= {21} if number in self.events else set()
        faults |= {23} if port is not None and not self.has_port(port) else set()
        faults |= {26} if not fits("id", number) or not fits("at", at) else set()
        faults |= {29} if len(self.events) >= MOST_EVENTS else set()
        self.events[number] = (at, port, kind)
        return faults | ({28} if not self.floors_fit() else set())

    def remove(self, number):
        return set() if self.events.pop(number, None) else {22}

    def move(self, number, at):
        faults = {26} if not fits("at", at) else set()
        if number not in self.events:
            return faults | {22}
        self.events[number] = (at, *self.events[number][1:])
        return faults

    def change(self, number, *kind):
        faults = self.kind_faults(kind)
        if number not in self.events:
            return faults | {22}
        at, port, _ = self.events[number]
        self.events[number] = (at, port, kind)
        return faults | ({23} if port is None else set())

    def name(self, names, at, name, values):
        """Adds a name, puts it in the place of another, or takes it out."""
        if values == ("drop",):
            used = any(kind[0] == "attach" and kind[at] == name for _, _, kind in self.events.values())
            return {24} if names.pop(name, None) is None else {25} if used else set()
        faults = {29} if name not in names and len(names) >= MOST_NAMES else set()
        names[name] = values
        return faults

    def cable(self, name, *values):
        faults = set() if values == ("drop",) or values[1] in (3000, 5000) else {26}
        return self.name(self.cables, 1, name, values) | faults

    def sink(self, name, *values):
        if values == ("drop",):
            return self.name(self.sinks, 2, name, values)
        faults = {26} if not fits("mv", values[0]) or not fits("demand", values[1]) else set()
        revision = int(values[3][-1]) if len(values) == 4 else 3
        return self.name(self.sinks, 2, name, (*values[:3], revision)) | faults

    def caps(self, port, *numbers):
        pairs = list(zip(numbers[::2], numbers[1::2]))
        faults = {26 for mv, ma in pairs if not fits("mv", mv) or not fits("ma", ma)}
        volts = [mv for mv, _ in pairs]
        faults |= {27} if volts[0] != 5_000 or volts != sorted(set(volts)) else set()
        if not self.has_port(port):
            return faults | {23}
        self.ports[port - 1]["supplies"] = pairs
        return faults

    def floor(self, port, mw):
        faults = {26} if not fits("floor", mw) else set()
        if not self.has_port(port):
            return faults | {23}
        self.ports[port - 1]["floor"] = mw
        return faults | ({28} if not self.floors_fit() else set())

    def set_budget(self, mw):
        self.budget = mw
        return ({26} if not fits("budget", mw) else set()) | ({28} if not self.floors_fit() else set())

    def set_end(self, at):
        self.end = at
        return {26} if not fits("at", at) else set()

    def edited(self, words):
        """The scenario after an edit, of words and numbers, and no refusal; or this one, and the least refusal."""
        after = copy.deepcopy(self)
        first, *others = words
        faults = {"budget": after.set_budget, "end": after.set_end}.get(first, getattr(after, first))(*others) if first in LINES else {20}
        return (self, min(faults)) if faults else (after, None)


def shuffled(lots, items):
    items = list(items)
    lots.shuffle(items)
    return items


class Lots:
    """Scenarios and edit lines that are drawn by lot."""

    # Times at which a port that is attached at 0 has just sent, or is about to.
    TIMES = (0, 1, 49_999, 50_000, 50_730, 54_890, 54_891, 55_520, 56_117, 58_117, 58_800, 61_344, 100_000, 192_438, 193_532, 193_533,
             200_000, 500_000, 500_550, 600_000, 693_532, 700_000, 1_000_000, 1_380_280, 2_000_000)

    def __init__(self, lots):
        self.lots = lots

    def often(self, share):
        return self.lots.random() < share

    def number(self, what):
        """A number that fits, but for one in thirty."""
        least, most, step = RANGES[what]
        if self.often(1 / 30):
            return self.lots.choice((max(least - step, 0), most + step, least + 1 if step > 1 else most + 1))
        return least + step * self.lots.randrange((most - least) // step + 1)

    def time(self, scenario):
        if self.often(1 / 40):
            return self.lots.choice((LAST, LAST + 1))
        near = [*self.TIMES, scenario.end, *(at for at, _, _ in scenario.events.values())]
        return max(0, self.lots.choice(near) + self.lots.choice((0, 0, 0, 1, -1, 100, self.lots.randrange(400_000))))

    def supplies(self):
        volts = sorted({5_000, *(5_000 + 50 * self.lots.randrange(301) for _ in range(self.lots.choice((0, 0, 1, 2, 6))))})
        return [(mv, 10 * self.lots.randrange(1, 501)) for mv in volts]

    def scenario(self):
        found = Scenario()
        found.end = self.lots.choice((52_000, 300_000, 1_000_000, 1_000_000, 2_500_000, 2_500_000, 6_000_000))
        found.budget = self.lots.choice((20_000, 50_000, 60_000, 150_000))
        for _ in range(self.lots.choice((1, 1, 2, 2, 3, 8))):
            found.ports.append({"floor": self.lots.choice((500, 2_000, 2_500)), "supplies": self.supplies(),
                                "tries": self.lots.choice((0, 1, 1, 3)), "unconstrained": self.often(0.2)})
        found.cables = {f"c{n}": (self.lots.choice(PLUGS), self.lots.choice((3000, 5000))) for n in range(self.lots.randrange(1, 4))}
        for n in range(self.lots.randrange(1, 4)):
            most, demand = self.lots.choice((5_000, 9_000, 20_000)), self.lots.choice((500, 9_000, 15_000, 60_000))
            found.sinks[f"s{n}"] = (most, demand, self.lots.choice(("pd", "pd", "pd", *MODES)), self.lots.choice((3, 3, 2)))
        for port in range(1, len(found.ports) + 1):
            names = (self.lots.choice(sorted(names)) for names in (found.cables, found.sinks))
            found.events[port] = (self.lots.choice((0, 0, 1, 200_000)), port, ("attach", *names))
        for number in range(20, 20 + self.lots.randrange(12)):
            after, refused = found.edited(("insert", number, self.time(found), *self.happening(found)))
            found = found if refused else after
        return found

    def names(self, scenario):
        """A cable's name and a sink's, now and then one that isn't there."""
        return tuple("x" if self.often(1 / 40) else self.lots.choice(sorted(names) or ["x"]) for names in (scenario.cables, scenario.sinks))

    def kind(self, scenario):
        kind = self.lots.choice(("attach", "attach", "detach", "demand", "lose", "lose", "lose", "damage", "damage", "get_source", "get_sink"))
        return (kind, *(self.names(scenario) if kind == "attach" else map(self.number, NUMBERS[kind])))

    def port(self, scenario):
        return self.lots.choice((0, len(scenario.ports) + 1, 9)) if self.often(1 / 30) else self.lots.randrange(len(scenario.ports)) + 1

    def power(self, scenario):
        """A budget near what the floors take, or far above."""
        floors = sum(port["floor"] for port in scenario.ports)
        return self.lots.choice((floors, floors - 1, floors + self.lots.randrange(20_000), self.number("budget"), 60_000))

    def happening(self, scenario):
        """A port and a kind, or no port and a change of the budget."""
        if self.often(0.15):
            return None, "budget", self.power(scenario)
        return self.port(scenario), *self.kind(scenario)

    def an_id(self, scenario):
        return self.lots.choice((0, 77, 999_999)) if self.often(1 / 15) or not scenario.events else self.lots.choice(sorted(scenario.events))

    def a_name(self, names):
        return "x9" if self.often(1 / 15) or not names else self.lots.choice(sorted(names))

    def line(self, scenario):
        """An edit, as words and numbers."""
        first = self.lots.choice((*LINES, "insert", "insert", "insert", "remove", "move", "move", "change", "?"))
        if first == "insert":
            return first, self.an_id(scenario) if self.often(0.1) else self.number("id"), self.time(scenario), *self.happening(scenario)
        if first in ("cable", "sink"):
            names = getattr(scenario, f"{first}s")
            if self.often(0.3):
                return first, self.a_name(names), "drop"
            name = self.lots.choice((self.a_name(names), f"n{self.lots.randrange(9)}"))
            if first == "cable":
                return first, name, self.lots.choice(PLUGS), self.lots.choice((3000, 3000, 5000, 5000, 5000, 4000))
            return first, name, self.number("mv"), self.number("demand"), self.lots.choice(MODES), *self.lots.choice(((), ("rev2",), ("rev3",)))
        if first == "caps":
            pairs = [number for pair in self.supplies() for number in pair]
            spoiled = [*pairs[:-2], self.number("mv"), self.number("ma")] if self.often(0.3) else pairs
            return first, self.port(scenario), *spoiled
        return {
            "remove": lambda: (first, self.an_id(scenario)),
            "move": lambda: (first, self.an_id(scenario), self.time(scenario)),
            "change": lambda: (first, self.an_id(scenario), *self.kind(scenario)),
            "floor": lambda: (first, self.port(scenario), self.lots.choice((500, 2_500, 5_000, self.number("floor")))),
            "budget": lambda: (first, self.power(scenario)),
            "end": lambda: (first, self.lots.choice((LAST + 1, 0, 52_000, 1_000_000, 2_500_000))),
            "?": lambda: (self.lots.choice(("mvoe", "shwo", "remove1", "Move")), 1, 5),
        }[first]()


def spelled(words):
    """An edit as a line of a script; a change of the budget has no port."""
    return " ".join(str(word) for word in words if word is not None)
