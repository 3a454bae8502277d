"""The first fault of a problem file, by the program's checks in the program's order, said in words."""

from dataclasses import dataclass
from math import factorial
from typing import Any

from companion.bells import SYMBOLS, Change
from companion.notation import MOST_CHANGES, NotationFault, read_notation
from companion.reading import NotToml, read_toml

MOST_NUMBER = 12_000
MOST_LEADS = 1_024
MOST_STEPS = 24
MOST_PARTS = 64

NUMBERS = {
    "NotToml": 1, "Key": 2, "Stage": 3, "Letter": 4, "Notation": 5, "Over": 6, "Mark": 7, "CallLength": 8, "Clash": 9,
    "Steps": 10, "Range": 11, "Deep": 12, "Parts": 13, "Count": 14, "Pattern": 15, "NoMemory": 16, "Com": 17,
}


@dataclass(frozen=True)
class Fault(Exception):
    """A fault: its name, what the program adds to it, a sentence without its full stop, and where it is."""

    name: str
    details: str
    words: str
    # The table, its index from 0, and the key; the table alone where it is missing or as a whole wrong.
    at: tuple[str, int, str] | None = None
    line: int | None = None
    column: int | None = None
    # The fault within a notation.
    notation: str | None = None

    def note(self) -> str:
        """The line that the program writes."""
        return f"ringsearch: problem {NUMBERS[self.name]} {self.name} {self.details}".rstrip()


# Keys, in the order in which they are checked


@dataclass(frozen=True)
class Key:
    name: str
    kind: str
    needed: bool


@dataclass(frozen=True)
class Part:
    """A part of the file: an array of tables with the least and the most of them, or one table."""

    name: str
    keys: tuple[Key, ...]
    least: int
    most: int | None = None

    def is_array(self) -> bool:
        return self.most is not None


LIMITS = (Key("min", "number", False), Key("max", "number", False))

PARTS = (
    Part("method", (Key("letter", "text", True), Key("notation", "text", True), Key("name", "text", False)), 1, 8),
    Part(
        "call",
        (
            Key("mark", "text", True),
            Key("notation", "text", True),
            Key("over", "number", False),
            Key("methods", "letters", False),
        ),
        0,
        23,
    ),
    Part("query", (Key("min", "number", True), Key("max", "number", True), Key("parts", "number", False)), 1),
    Part("count", (Key("mark", "text", True), *LIMITS), 0, 16),
    Part("leads", (Key("letter", "text", True), *LIMITS), 0, 16),
    Part("rows", (Key("pattern", "text", True), *LIMITS), 0, 32),
    Part("com", LIMITS, 0),
)

KIND_WORDS = {
    "text": "a text in quotes",
    "number": "a whole number without quotes",
    "letters": "letters of methods in quotes, each once",
}


def is_number(value: Any) -> bool:
    return isinstance(value, int) and not isinstance(value, bool)


def _key_fault(path: str, words: str, at: tuple[str, int, str] | None) -> Fault:
    shown = "".join(chr(byte) if 33 <= byte <= 126 else "?" for byte in path.encode())
    return Fault("Key", shown, words, at)


def check_keys(root: dict[str, Any]) -> None:
    if not is_number(root.get("stage")):
        raise _key_fault("stage", stage_words(root), ("", 0, "stage") if "stage" in root else None)
    for part in PARTS:
        if part.is_array():
            check_array(root, part)
        else:
            check_table(root, part)
    known = {"stage", *(part.name for part in PARTS)}
    for name in unknown_in(root, known):
        raise _key_fault(name, f"the key `{name}` is unknown: {key_list('', known)}", ("", 0, name))


def stage_words(root: dict[str, Any]) -> str:
    if "stage" in root:
        return "`stage` is a whole number without quotes, the number of bells"
    below = [part for part in PARTS for table in tables_of(root.get(part.name)) if "stage" in table]
    if below:
        return f"`stage` stands below [[{below[0].name}]] and so belongs to it: move it above the first table"
    return "`stage` is missing, the number of bells: it stands above the first table"


def tables_of(value: Any) -> list[dict]:
    if isinstance(value, dict):
        return [value]
    return [item for item in value if isinstance(item, dict)] if isinstance(value, list) else []


def unknown_in(table: dict[str, Any], known: set[str]) -> list[str]:
    return sorted((name for name in table if name not in known), key=str.encode)


def key_list(where: str, known: set[str]) -> str:
    return f"the keys {where or 'of the top'} are {', '.join(f'`{name}`' for name in sorted(known))}"


def check_array(root: dict[str, Any], part: Part) -> None:
    if part.name not in root:
        if part.least:
            raise _key_fault(part.name, f"[[{part.name}]] is missing", None)
        return
    items = root[part.name]
    at = (part.name, 0, "")
    if isinstance(items, dict):
        raise _key_fault(part.name, f"[{part.name}] has one bracket: write [[{part.name}]], since there may be several", at)
    if not isinstance(items, list) or not all(isinstance(item, dict) for item in items):
        raise _key_fault(part.name, f"`{part.name}` is a list of tables, [[{part.name}]]", at)
    if not part.least <= len(items) <= part.most:
        words = f"there are {len(items)} [[{part.name}]], and there may be {part.least} to {part.most}"
        raise _key_fault(part.name, words, at)
    for index, item in enumerate(items):
        check_keys_of(root, part, item, f"{part.name}[{index}].", index)


def check_table(root: dict[str, Any], part: Part) -> None:
    if part.name not in root:
        if part.least:
            raise _key_fault(part.name, f"[{part.name}] is missing, with `min` and `max`", None)
        return
    table = root[part.name]
    if not isinstance(table, dict):
        words = f"`{part.name}` is one table, [{part.name}], with single brackets"
        raise _key_fault(part.name, words, (part.name, 0, ""))
    check_keys_of(root, part, table, f"{part.name}.", 0)


def check_keys_of(root: dict[str, Any], part: Part, table: dict[str, Any], path: str, index: int) -> None:
    for key in part.keys:
        if key.name not in table:
            if key.needed:
                where = f"{ordinal(index)} [[{part.name}]]" if part.is_array() else f"[{part.name}]"
                raise _key_fault(path + key.name, f"{where} has no `{key.name}`", (part.name, index, ""))
            continue
        why = wrong_kind(root, key, table[key.name])
        if why:
            raise _key_fault(path + key.name, why, (part.name, index, key.name))
    known = {key.name for key in part.keys}
    for name in unknown_in(table, known):
        words = f"the key `{name}` is unknown: {key_list(f'of [{part.name}]', known)}"
        raise _key_fault(path + name, words, (part.name, index, name))


def ordinal(index: int) -> str:
    names = ["the first", "the second", "the third", "the fourth", "the fifth", "the sixth"]
    return names[index] if index < len(names) else f"number {index + 1} of the"


def wrong_kind(root: dict[str, Any], key: Key, value: Any) -> str | None:
    """Why a value may not stand at a key."""
    if key.kind == "number":
        return None if is_number(value) else f"`{key.name}` is {KIND_WORDS['number']}"
    if not isinstance(value, str):
        return f"`{key.name}` is {KIND_WORDS[key.kind]}"
    if key.kind == "letters":
        return wrong_letters(root, value)
    return None


def wrong_letters(root: dict[str, Any], text: str) -> str | None:
    """Why a text is not some methods' letters; it is compared byte by byte, as the program does."""
    letters = {method["letter"].encode() for method in root["method"]}
    spelled = text.encode()
    if not spelled:
        return "`methods` is empty: leave it out where the call is made in all methods"
    stranger = next((byte for byte in spelled if bytes([byte]) not in letters), None)
    if stranger is not None:
        shown = chr(stranger) if stranger < 128 else text
        return f"`methods` names {shown}, and no method has this letter"
    if len(set(spelled)) < len(spelled):
        return "`methods` names a letter twice"
    return None


# Values, in the order in which they are checked


def one_byte(text: str) -> str:
    """A letter or a mark; what is not one byte counts as none."""
    return text if len(text.encode()) == 1 else "\0"


class Values:
    """The values of a file whose keys are right, with the changes of its notations."""

    def __init__(self, root: dict[str, Any]):
        self.root = root
        self.stage: int = root["stage"]
        self.methods: list[dict] = root["method"]
        self.calls: list[dict] = root.get("call", [])
        self.letters = [one_byte(method["letter"]) for method in self.methods]
        self.marks = [one_byte(call["mark"]) for call in self.calls]
        self.leads: list[list[Change]] = []
        self.tunes: list[list[Change]] = []

    def is_for(self, call: int, method: int) -> bool:
        letters = self.calls[call].get("methods")
        return letters is None or self.letters[method] in letters

    def over(self, call: int) -> int:
        return self.calls[call].get("over", len(self.tunes[call]))

    def called_length(self, call: int, method: int) -> int:
        return len(self.leads[method]) - self.over(call) + len(self.tunes[call])


def check_values(root: dict[str, Any]) -> Values:
    """The values, where none of them is wrong."""
    values = Values(root)
    check_letters(values)
    check_notations(values)
    check_calls(values)
    check_steps(values)
    check_query(values)
    check_limits(values)
    return values


def check_letters(values: Values) -> None:
    if not 3 <= values.stage <= 16:
        words = f"`stage` is {values.stage}, and there may be 3 to 16 bells"
        raise Fault("Stage", str(values.stage), words, ("", 0, "stage"))
    for index, letter in enumerate(values.letters):
        given = values.methods[index]["letter"]
        at = ("method", index, "letter")
        if not "A" <= letter <= "Z":
            raise Fault("Letter", str(index), f"the letter “{given}” is not one capital, A to Z", at)
        if letter in values.letters[:index]:
            raise Fault("Letter", str(index), f"the letter {letter} is an earlier method's too", at)


def check_notations(values: Values) -> None:
    for table, items, changes in (("method", values.methods, values.leads), ("call", values.calls, values.tunes)):
        for index, item in enumerate(items):
            try:
                changes.append(read_notation(item["notation"], values.stage))
            except NotationFault as fault:
                words = f"in “{item['notation']}” {notation_words(item['notation'], fault, values.stage)}"
                details = f"{table} {index} {fault.name} {fault.at}"
                raise Fault("Notation", details, words, (table, index, "notation"), notation=fault.name) from None


def check_calls(values: Values) -> None:
    for index, call in enumerate(values.calls):
        if not 0 <= call.get("over", 0) <= MOST_CHANGES:
            raise Fault("Over", str(index), f"`over` is {call['over']}, and may be 0 to 128", ("call", index, "over"))
    for index, mark in enumerate(values.marks):
        if not "a" <= mark <= "z" or mark == "p":
            given = values.calls[index]["mark"]
            words = f"the mark “{given}” is not one small letter a to z other than p"
            raise Fault("Mark", str(index), words, ("call", index, "mark"))
    for index in range(len(values.calls)):
        for method in range(len(values.methods)):
            if values.is_for(index, method):
                check_call_length(values, index, method)
    for second in range(len(values.calls)):
        for first in range(second):
            check_apart(values, first, second)


def check_call_length(values: Values, call: int, method: int) -> None:
    lead, over = len(values.leads[method]), values.over(call)
    mark, letter = values.marks[call], values.letters[method]
    at = ("call", call, "over" if "over" in values.calls[call] else "notation")
    if over > lead:
        words = f"the call {mark} replaces {over} changes, and the lead of {letter} has {lead}"
        raise Fault("CallLength", f"{call} {method}", words, at)
    length = values.called_length(call, method)
    if length > MOST_CHANGES:
        words = f"the call {mark} gives a lead of {letter} with {length} changes, and 128 are the most"
        raise Fault("CallLength", f"{call} {method}", words, at)


def check_apart(values: Values, first: int, second: int) -> None:
    if values.marks[first] != values.marks[second]:
        return
    for method, letter in enumerate(values.letters):
        if values.is_for(first, method) and values.is_for(second, method):
            words = f"two calls have the mark {values.marks[first]} in the method {letter}"
            raise Fault("Clash", f"{first} {second}", words, ("call", second, "mark"))


def steps_of(values: Values) -> list[tuple[int, int | None]]:
    """Each method's plain lead, and its lead with each call that is made in it, by their indices."""
    steps: list[tuple[int, int | None]] = []
    for method in range(len(values.methods)):
        calls = [call for call in range(len(values.calls)) if values.is_for(call, method)]
        steps += [(method, None), *((method, call) for call in calls)]
    return steps


def step_length(values: Values, step: tuple[int, int | None]) -> int:
    method, call = step
    return len(values.leads[method]) if call is None else values.called_length(call, method)


def check_steps(values: Values) -> None:
    steps = len(steps_of(values))
    if steps > MOST_STEPS:
        words = f"methods and their calls make {steps} different leads, and 24 are the most"
        raise Fault("Steps", str(steps), words, ("method", 0, ""))


def check_query(values: Values) -> None:
    query = values.root["query"]
    least, most, parts = query["min"], query["max"], query.get("parts", 1)
    if not 1 <= least <= most <= MOST_NUMBER:
        key = "max" if most > MOST_NUMBER else "min"
        words = f"lengths from {least} to {most} are no range within 1 to 12000"
        raise Fault("Range", f"{least} {most}", words, ("query", 0, key))
    shortest = min(step_length(values, step) for step in steps_of(values))
    depth = min(most, factorial(values.stage)) // shortest
    if depth > MOST_LEADS:
        words = f"touches of up to {most} changes have up to {depth} leads of {shortest}, and 1024 are the most"
        raise Fault("Deep", str(depth), words, ("query", 0, "max"))
    if not 1 <= parts <= MOST_PARTS:
        raise Fault("Parts", str(parts), f"`parts` is {parts}, and may be 1 to 64", ("query", 0, "parts"))


def bounds(table: dict[str, Any]) -> tuple[int, int]:
    return table.get("min", 0), table.get("max", MOST_NUMBER)


def wrong_bounds(table: dict[str, Any]) -> str | None:
    least, most = bounds(table)
    if 0 <= least <= most <= MOST_NUMBER:
        return None
    return f"from {least} to {most} is no range within 0 to 12000"


def check_limits(values: Values) -> None:
    for index, count in enumerate(values.root.get("count", [])):
        mark = one_byte(count["mark"])
        why = None if mark == "p" or mark in values.marks else f"no lead has the mark “{count['mark']}”"
        if why or (why := wrong_bounds(count)):
            raise Fault("Count", f"count {index}", why, ("count", index, "mark"))
    for index, leads in enumerate(values.root.get("leads", [])):
        letter = one_byte(leads["letter"])
        why = None if letter in values.letters else f"no method has the letter “{leads['letter']}”"
        if why or (why := wrong_bounds(leads)):
            raise Fault("Count", f"leads {index}", why, ("leads", index, "letter"))
    for index, rows in enumerate(values.root.get("rows", [])):
        why = pattern_words(rows["pattern"], values.stage) or wrong_bounds(rows)
        if why:
            raise Fault("Pattern", str(index), f"the pattern “{rows['pattern']}”: {why}", ("rows", index, "pattern"))
    if "com" in values.root and (why := wrong_bounds(values.root["com"])):
        raise Fault("Com", "", f"the limits of [com]: {why}", ("com", 0, ""))


def is_pattern(text: str, stage: int) -> bool:
    return not pattern_words(text, stage)


def pattern_words(text: str, stage: int) -> str:
    """Why a text is no pattern, or nothing where it is one."""
    named = [cell for cell in text if cell not in "?*"]
    stranger = next((cell for cell in named if cell not in SYMBOLS), None)
    if stranger:
        return f"“{stranger}” is no bell: they are 1 to 9, 0, E, T, A, B, C, D, and ? is any one, * any number"
    above = next((cell for cell in named if SYMBOLS.index(cell) >= stage), None)
    if above:
        return f"bell {above} is above the {stage} bells"
    if len(set(named)) < len(named):
        return "a bell is named twice"
    if text.count("*") > 1:
        return "there are two *, and one is the most"
    if "*" in text:
        return "" if len(text) <= stage + 1 else f"it has more cells than there are bells, {stage}"
    return "" if len(text) == stage else f"it has {len(text)} cells, and there are {stage} bells: write * for any number"


def notation_words(text: str, fault: NotationFault, stage: int) -> str:
    """What a fault of a notation is, with its byte and what stands there."""
    spelled = text.encode()
    here = spelled[fault.at:].decode(errors="replace")[:1]
    at = f"at byte {fault.at}"
    words = {
        "Symbol": f"“{here}” {at} is no place, no cross, no dot and no comma{_symbol_hint(here)}",
        "Above": f"place {here} {at} is above the {stage} bells",
        "Order": f"place {here} {at} is not above the place before it: write a dot if another change begins there",
        "Gap": f"place {here} {at} has an odd number of places before it in its change: a place is missing, or a dot",
        "CrossOnOdd": f"a cross {at} needs an even number of bells, and there are {stage}",
        "Dot": f"the dot {at} does not stand between two changes",
        "SecondComma": f"the comma {at} is the second one",
        "EmptyBlock": f"a block without a change ends {at}",
        "Long": "there are more than 128 changes",
    }
    return words[fault.name]


def _symbol_hint(symbol: str) -> str:
    if symbol and symbol in "&+":
        return ": & and + are not written, and with a comma each block is rung there and back"
    if symbol and symbol in "etabcd":
        return ": bells above 9 are 0, E, T, A, B, C, D in capitals"
    if symbol in ("–", "—", "−"):
        return ": a cross is x or a plain -"
    if symbol in ("l", "h"):
        return ": write the lead end after a comma"
    return ""


def read_values(data: bytes) -> Values:
    """The values of a problem file; its first fault is raised."""
    try:
        root = read_toml(data)
    except NotToml as why:
        raise Fault("NotToml", "", why.words, None, why.line, why.column) from None
    check_keys(root)
    return check_values(root)


def first_fault(data: bytes) -> Fault | None:
    """The first fault of a problem file, or None where the program takes it."""
    try:
        read_values(data)
    except Fault as fault:
        return fault
    return None
