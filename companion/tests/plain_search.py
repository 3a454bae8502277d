"""A search of its own in plain Python, from the rules of ringing alone, to check by: it shares nothing with the companion.

It rings every calling lead by lead from rounds, as long as all rows differ, and lists those that come home.
"""

import re
import tomllib
from dataclasses import dataclass, field
from itertools import groupby

SYMBOLS = "1234567890ETABCD"


def changes(notation, bells):
    """The changes of a notation, each a set of places."""
    spelled = []
    blocks = notation.replace(" ", "").split(",")
    for block in blocks:
        one = []
        for item in re.findall(r"[xX-]|[0-9ETABCD]+", block):
            places = [] if item in "xX-" else [SYMBOLS.index(symbol) + 1 for symbol in item]
            if places and places[0] % 2 == 0:
                places = [1] + places
            if places and (bells - places[-1]) % 2:
                places = places + [bells]
            one.append(frozenset(places))
        spelled += one + one[-2::-1] if len(blocks) == 2 else one
    return spelled


def swap(row, places):
    bells, at = list(row), 1
    while at < len(bells):
        if at in places:
            at += 1
        else:
            bells[at - 1], bells[at] = bells[at], bells[at - 1]
            at += 2
    return "".join(bells)


def rows_of(row, lead):
    rung = []
    for places in lead:
        row = swap(row, places)
        rung.append(row)
    return rung


def fits(row, pattern):
    regular = "".join({"?": ".", "*": ".*"}.get(cell, cell) for cell in pattern)
    return re.fullmatch(regular, row) is not None


@dataclass
class Plain:
    """A problem, and what is known of its leads."""

    bells: int
    steps: list = field(default_factory=list)  # (letter, mark, changes)
    query: dict = field(default_factory=dict)
    known: dict = field(default_factory=dict)
    numbers: dict = field(default_factory=dict)

    def lead(self, head, step):
        """The next head, the rows as bits of a number, their number, whether no touch may have them, and how many fit each pattern."""
        if (head, step) not in self.known:
            rung = rows_of(head, self.steps[step][2])
            bits = 0
            for row in rung:
                bits |= 1 << self.numbers.setdefault(row, len(self.numbers))
            fitting = [sum(fits(row, rows["pattern"]) for row in rung) for rows in self.query["rows"]]
            bad = len(set(rung)) < len(rung) or any(number > rows["max"] for number, rows in zip(fitting, self.query["rows"]))
            self.known[head, step] = (rung[-1], bits, len(rung), bad, fitting)
        return self.known[head, step]


def load(text):
    told = tomllib.loads(text)
    problem = Plain(told["stage"])
    letters = sorted(told["method"], key=lambda method: told["method"].index(method))
    for method in letters:
        lead = changes(method["notation"], problem.bells)
        problem.steps.append((method["letter"], "p", lead))
        calls = [call for call in told.get("call", []) if method["letter"] in call.get("methods", method["letter"])]
        for call in sorted(calls, key=lambda call: call["mark"]):
            own = changes(call["notation"], problem.bells)
            over = call.get("over", len(own))
            problem.steps.append((method["letter"], call["mark"], lead[:len(lead) - over] + own))
    limits = {key: [{"min": 0, "max": 12000, **item} for item in told.get(key, [])] for key in ("count", "leads", "rows")}
    problem.query = {"parts": 1, **told["query"], **limits, "com": told.get("com")}
    return problem


def word(problem, calling):
    single = len({letter for letter, _, _ in problem.steps}) == 1
    return "".join(mark if single else letter + mark for letter, mark, _ in (problem.steps[step] for step in calling))


def is_wanted(problem, calling):
    """Whether a touch has what is asked of leads and of rows; its length and its truth are not looked at."""
    query = problem.query
    for count in query["count"]:
        if not count["min"] <= sum(problem.steps[step][1] == count["mark"] for step in calling) <= count["max"]:
            return False
    for leads in query["leads"]:
        if not leads["min"] <= sum(problem.steps[step][0] == leads["letter"] for step in calling) <= leads["max"]:
            return False
    if query["com"] is not None:
        letters = [problem.steps[step][0] for step in calling]
        if not query["com"].get("min", 0) <= len(list(groupby(letters))) - 1 <= query["com"].get("max", 12000):
            return False
    if query["rows"]:
        row, fitting = SYMBOLS[:problem.bells], []
        for step in calling:
            row, _, _, _, numbers = problem.lead(row, step)
            fitting.append(numbers)
        for rows, number in zip(query["rows"], map(sum, zip(*fitting))):
            if not rows["min"] <= number <= rows["max"]:
                return False
    return True


def is_least_wanted(problem, calling):
    """Whether no rotation that is less is wanted too."""
    turned = [calling[at:] + calling[:at] for at in range(1, len(calling))]
    return not any(one < calling and is_wanted(problem, one) for one in set(turned) if one < calling)


def book(text, most=None):
    """The book of a problem file, as the engine's rules say it."""
    problem = load(text)
    query = problem.query
    home, parts = SYMBOLS[:problem.bells], query["parts"]
    longest = min(query["max"], most or query["max"]) // parts
    turns = not query["rows"] and query["com"] is None
    most_of = [(limit["mark"], 1, limit["max"]) for limit in query["count"]]
    most_of += [(limit["letter"], 0, limit["max"]) for limit in query["leads"]]
    found = []
    path = []

    def close(head, length):
        """A calling of which parts make a touch: adds it if it is true and wanted."""
        whole = tuple(path) * parts
        if not query["min"] <= length * parts <= query["max"]:
            return
        row, seen, total = home, 0, 0
        for step in whole:
            row, bits, count, bad, _ = problem.lead(row, step)
            if bad or seen & bits:
                return
            seen |= bits
            total += count
        if row == home and is_wanted(problem, whole) and is_least_wanted(problem, whole):
            found.append((total, whole))

    def go(head, seen, length, period):
        for step in range(len(problem.steps)):
            at = len(path)
            # Where rotations may be cut, a calling is no less than any front of its own turns.
            new_period = period
            if turns and at:
                before = path[at - period]
                if step < before:
                    continue
                if step > before:
                    new_period = at + 1
            after, bits, count, bad, _ = problem.lead(head, step)
            if bad or seen & bits or length + count > longest:
                continue
            path.append(step)
            if all(parts * sum(problem.steps[one][kind] == what for one in path) <= limit for what, kind, limit in
                   ((what, 1 if kind == 1 else 0, limit) for what, kind, limit in most_of)):
                if after == home or parts > 1:
                    if not turns or len(path) % new_period == 0:
                        close(after, length + count)
                if after != home:
                    go(after, seen | bits, length + count, new_period)
            path.pop()

    go(home, 0, 0, 1)
    found.sort()
    lines = [f"{length} {word(problem, calling)}" for length, calling in found]
    return lines + [f"touches {len(lines)}"]
