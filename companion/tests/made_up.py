"""Problem files made up of right and wrong values, so that the program's later checks are met too."""

NOTATIONS = {
    4: ["x14x14,12", "x", "14", "x14", "13", "x.,", "x,1,2", ""],
    5: ["5.1.5.1.5,125", "3,1.5.1.5.1", "5", "345", "x1", "5..1"],
    6: ["x16x16x16,12", "x36x14x12x36x14x56,12", "x16", "4", "15", "x" * 129, "x" * 128, "16.16", "1 6", "7"],
    8: ["x18x18x18x18,12", "x", "18", "9", "x" * 100],
}


def mostly(chosen, right, wrong):
    return chosen.choice(right) if chosen.random() < 0.95 else chosen.choice(wrong)


def limits(chosen):
    """Limits of a count or a pattern, either of which may be left out."""
    numbers = [0, 1, 2, 5, 12_000, 12_001, -1] if chosen.random() < 0.2 else [1, 5]
    return "".join(f"{key} = {chosen.choice(numbers)}\n" for key in ("min", "max") if chosen.random() < 0.5)


def patterns(stage):
    bells = "1234567890ETABCD"[:stage]
    right = ["*" + bells[-2:], bells, "?" * stage, "1*" + bells[-1], "*", bells + "*", "1" + "?" * (stage - 1)]
    return right, ["**", "x*", "*9", "?" * (stage + 1), "11*", "1*2*", "", "*T", bells + "*1"]


def methods_text(chosen, stage, letters):
    text = ""
    for letter in letters:
        notation = mostly(chosen, NOTATIONS[stage][:3], NOTATIONS[stage])
        text += f'[[method]]\nletter = "{letter}"\nnotation = "{notation}"\n'
    return text


def calls_text(chosen, stage, letters, marks):
    text = ""
    for mark in marks:
        notation = mostly(chosen, NOTATIONS[stage][:3], NOTATIONS[stage])
        text += f'[[call]]\nmark = "{mark}"\nnotation = "{notation}"\n'
        if chosen.random() < 0.3:
            text += f"over = {mostly(chosen, [0, 1, 2, 3, 5, 8], [24, 128, 129, -1])}\n"
        if chosen.random() < 0.3:
            text += f'methods = "{"".join(chosen.choice([*letters, *letters, "Z"]) for _ in range(chosen.choice([1, 1, 2])))}"\n'
    return text


def problem(chosen):
    """A problem file, faulty or not, by a source of chance."""
    stage = chosen.choice(list(NOTATIONS))
    letters = [mostly(chosen, "ABCDEFGHIJ", ["a", "AB", "", "\u00e9", "1"]) for _ in range(chosen.choice([1, 1, 2, 3, 8, 9]))]
    marks = [mostly(chosen, "bscd", ["p", "B", "bb", "", "z"]) for _ in range(chosen.choice([0, 1, 1, 2, 3]))]
    text = f"stage = {mostly(chosen, [stage], [2, 17, -1, 0, 16, 3])}\n"
    text += methods_text(chosen, stage, letters) + calls_text(chosen, stage, letters, marks)
    text += f"[query]\nmin = {mostly(chosen, [1, 5], [0, 12_000])}\nmax = {mostly(chosen, [24, 60, 100, 1025, 12_000], [4, 12_001])}\n"
    if chosen.random() < 0.3:
        text += f"parts = {mostly(chosen, [1, 2, 3, 64], [65, 0, -1])}\n"
    for _ in range(chosen.choice([0, 0, 1, 2])):
        text += f'[[count]]\nmark = "{mostly(chosen, [*marks, "p"], ["z", "", "pp"])}"\n' + limits(chosen)
    for _ in range(chosen.choice([0, 0, 1])):
        text += f'[[leads]]\nletter = "{mostly(chosen, letters, ["Y"])}"\n' + limits(chosen)
    for _ in range(chosen.choice([0, 0, 1, 2])):
        text += f'[[rows]]\npattern = "{mostly(chosen, *patterns(stage))}"\n' + limits(chosen)
    if chosen.random() < 0.25:
        text += "[com]\n" + limits(chosen)
    return text
