"""What a problem file says that the program takes, and that its writer surely did not mean."""

from collections.abc import Iterator
from math import factorial

from companion import library
from companion.bells import SYMBOLS, Change, order_of
from companion.classes import hunts_of, lead_head
from companion.faults import Values, bounds, step_length, steps_of
from companion.notation import change_text, write_notation


def warnings_of(values: Values) -> list[str]:
    found: list[str] = []
    for check in (of_methods, of_calls, of_lengths, of_counts, of_rows, of_method_changes):
        found += check(values)
    return found


def name_of(values: Values, index: int) -> str:
    """A method's letter, and its name where it has one."""
    name = values.methods[index].get("name")
    return f"{values.letters[index]}, {name}," if name else values.letters[index]


# Methods


def of_methods(values: Values) -> Iterator[str]:
    for index, lead in enumerate(values.leads):
        who = name_of(values, index)
        smaller = smaller_stage(lead, values.stage)
        if smaller:
            yield f"the notation of {who} is one of {smaller} bells: no bell crosses from place {smaller} to place {smaller + 1}."
        elif not is_variation(values, index) and (why := odd_course(lead, values.stage)):
            yield f"the plain course of {who} {why}. Does its notation lack its lead end, as in `,12`?"
        yield from other_notation(values, index)


def smaller_stage(lead: list[Change], stage: int) -> int | None:
    """The number of bells at the front that never change with those behind, where there are two or more of each."""
    for front in range(stage - 1, 2, -1):
        if not any(swaps(change, front, stage) for change in lead):
            return front
    return None


def swaps(change: Change, place: int, stage: int) -> bool:
    """Whether the bells at a place and at the next one swap."""
    at = 1
    while at < stage:
        if at in change:
            at += 1
        elif at == place:
            return True
        else:
            at += 2
    return False


def odd_course(lead: list[Change], stage: int) -> str | None:
    """Why a plain course is none that a method has: the bells that are no hunt bells work in turn."""
    head = lead_head(lead, stage)
    leads, hunts = order_of(head), hunts_of(lead, stage)
    if head == tuple(range(1, stage + 1)):
        return "is one lead: it ends in rounds"
    if head[0] != 1:
        return None if leads == stage else f"has {leads} leads of {len(lead)} changes, and its treble is not home at their ends"
    usual = stage - len(hunts)
    if leads == usual and len(hunts) <= 2:
        return None
    return f"has {leads} leads, where a method on {stage} bells has {stage - 1} as a rule"


def is_variation(values: Values, index: int) -> bool:
    """Whether a method differs from another one of the file in one change alone, as with a call at its half lead."""
    own = values.leads[index]
    return any(
        other != index and len(lead) == len(own) and sum(a != b for a, b in zip(lead, own)) == 1
        for other, lead in enumerate(values.leads)
    )


def other_notation(values: Values, index: int) -> Iterator[str]:
    title = values.methods[index].get("name", "")
    for method in library.methods().values():
        if library.plain_title(method.title) == library.plain_title(title):
            if method.stage != values.stage:
                yield f"{title} is on {method.stage} bells, and `stage` is {values.stage}."
            elif method.changes() != values.leads[index]:
                yield f"the library has another notation of {title}: {method.notation}."


# Calls


def of_calls(values: Values) -> Iterator[str]:
    for index, call in enumerate(values.calls):
        mark, changes = values.marks[index], values.tunes[index]
        spelled = call["notation"].strip()
        if len(changes) == 1 and len(spelled) == 1 and spelled in SYMBOLS and len(changes[0]) > 1:
            yield f"the call {mark} has one place, {spelled}: it is read as {change_text(changes[0])}."
        for method, letter in enumerate(values.letters):
            if values.is_for(index, method):
                yield from of_called_lead(values, index, method, letter)


def of_called_lead(values: Values, call: int, method: int, letter: str) -> Iterator[str]:
    lead, mark = values.leads[method], values.marks[call]
    called = lead[: len(lead) - values.over(call)] + values.tunes[call]
    if called == lead:
        yield f"the call {mark} leaves the lead of {letter} as it is."
    elif not called:
        return
    elif lead_head(lead, values.stage)[0] == 1 and lead_head(called, values.stage)[0] != 1:
        notation = write_notation(values.tunes[call])
        yield (
            f"the call {mark} of {letter} takes the treble off the lead: {notation} stands in place of "
            f"{write_notation(lead[len(lead) - values.over(call):])}."
        )


# Lengths and counts


def most_leads(values: Values) -> int:
    query = values.root["query"]
    shortest = min(step_length(values, step) for step in steps_of(values))
    return min(query["max"], factorial(values.stage)) // max(shortest, 1)


def of_lengths(values: Values) -> Iterator[str]:
    query = values.root["query"]
    extent, parts = factorial(values.stage), query.get("parts", 1)
    if query["min"] > extent:
        yield f"the least length, {query['min']}, is above the extent of {extent} changes: no touch is so long."
        return
    lengths = {step_length(values, step) for step in steps_of(values)}
    if not any_length(lengths, parts, query["min"], min(query["max"], extent)):
        told = ", ".join(map(str, sorted(lengths)))
        several = f" in {parts} parts" if parts > 1 else ""
        yield f"no number of leads of {told} changes{several} has a length from {query['min']} to {query['max']}: no touch has."
    elif len(steps_of(values)) == 1:
        course = len(values.leads[0]) * order_of(lead_head(values.leads[0], values.stage))
        if not query["min"] <= course <= query["max"]:
            yield f"there is no call: the only touch is the plain course of {course} changes, which is not asked for."


def any_length(lengths: set[int], parts: int, least: int, most: int) -> bool:
    """Whether some number of leads of these lengths, in so many equal parts, has a length in the range."""
    reached = {0}
    waiting = [0]
    while waiting:
        base = waiting.pop()
        for length in lengths:
            total = base + length
            if 0 < length and total * parts <= most and total not in reached:
                reached.add(total)
                waiting.append(total)
    return any(total and total * parts >= least for total in reached)


def of_counts(values: Values) -> Iterator[str]:
    room = most_leads(values)
    parts = values.root["query"].get("parts", 1)
    for table, key, what in (("count", "mark", "leads with the mark"), ("leads", "letter", "leads of")):
        asked = values.root.get(table, [])
        for item in asked:
            least, most = bounds(item)
            if least > room:
                yield f"at least {least} {what} {item[key]} are asked for, and a touch has at most {room} leads."
            elif parts > 1 and most // parts * parts < least:
                yield f"{least} to {most} {what} {item[key]} can't be: in {parts} parts their number is a multiple of {parts}."
        minima = {item[key]: bounds(item)[0] for item in asked}
        if len(minima) > 1 and sum(minima.values()) > room >= max(minima.values()):
            yield f"{sum(minima.values())} leads are asked for in all, and a touch has at most {room}."


def of_rows(values: Values) -> Iterator[str]:
    query = values.root["query"]
    for rows in values.root.get("rows", []):
        pattern, (least, most) = rows["pattern"], bounds(rows)
        fitting = factorial(values.stage - sum(cell not in "?*" for cell in pattern))
        if least > fitting:
            yield f"at least {least} rows of {pattern} are asked for, and only {fitting} rows fit it."
        elif least > query["max"]:
            yield f"at least {least} rows of {pattern} are asked for, and a touch has at most {query['max']} rows."
        if most == 0 and fits_rounds(pattern, values.stage):
            yield f"no row of {pattern} is allowed, and rounds, which each touch has, is one."


def fits_rounds(pattern: str, stage: int) -> bool:
    if "*" in pattern:
        pattern = pattern.replace("*", "?" * (stage + 1 - len(pattern)))
    return all(cell in ("?", SYMBOLS[place]) for place, cell in enumerate(pattern))


def of_method_changes(values: Values) -> Iterator[str]:
    if "com" not in values.root:
        return
    least, _ = bounds(values.root["com"])
    if least and len(values.methods) == 1:
        yield f"at least {least} changes of method are asked for, and there is one method."
    elif least > max(most_leads(values) - 1, 0):
        yield f"at least {least} changes of method are asked for, and a touch has at most {most_leads(values)} leads."
