"""A problem file as values, and its text with comments."""

from dataclasses import dataclass, field

MOST = 12_000


@dataclass
class MethodPart:
    letter: str
    name: str
    notation: str
    comment: str = ""


@dataclass
class CallPart:
    mark: str
    notation: str
    over: int | None = None
    methods: str | None = None
    comment: str = ""


@dataclass
class Limit:
    """How many of something a touch has: of leads with a mark or a letter, of rows of a pattern, of changes of method."""

    what: str
    least: int | None = None
    most: int | None = None

    def words(self) -> str:
        if self.least is not None and self.least == self.most:
            return f"exactly {self.least}"
        bounds = []
        if self.least is not None:
            bounds.append(f"at least {self.least}")
        if self.most is not None:
            bounds.append(f"at most {self.most}" if self.most else "no")
        return " and ".join(bounds)


@dataclass
class Problem:
    stage: int
    methods: list[MethodPart]
    least: int
    most: int
    calls: list[CallPart] = field(default_factory=list)
    parts: int = 1
    counts: list[Limit] = field(default_factory=list)
    leads: list[Limit] = field(default_factory=list)
    rows: list[Limit] = field(default_factory=list)
    tenor_rows: list[str] = field(default_factory=list)
    tenor_comment: str = ""
    method_changes: Limit | None = None
    comments: list[str] = field(default_factory=list)


def toml_text(text: str) -> str:
    return '"' + text.replace("\\", "\\\\").replace('"', '\\"') + '"'


def _table(heading: str, values: dict[str, object], comment: str = "") -> list[str]:
    lines = ["", *(f"# {line}" for line in comment.splitlines()), heading]
    for key, value in values.items():
        if value is not None:
            lines.append(f"{key} = {toml_text(value) if isinstance(value, str) else value}")
    return lines


def _method_lines(part: MethodPart) -> list[str]:
    return _table("[[method]]", {"letter": part.letter, "name": part.name, "notation": part.notation}, part.comment)


def _call_lines(part: CallPart) -> list[str]:
    values = {"mark": part.mark, "notation": part.notation, "over": part.over, "methods": part.methods}
    return _table("[[call]]", values, part.comment)


def _query_lines(problem: Problem) -> list[str]:
    length = f"{problem.least}" if problem.least == problem.most else f"{problem.least} to {problem.most}"
    comment = f"Touches of {length} changes"
    comment += f", in {problem.parts} equal parts." if problem.parts > 1 else "."
    values = {"min": problem.least, "max": problem.most, "parts": problem.parts if problem.parts > 1 else None}
    return _table("[query]", values, comment)


def _limit_lines(heading: str, key: str, limit: Limit, comment: str) -> list[str]:
    return _table(heading, {key: limit.what, "min": limit.least, "max": limit.most}, comment)


def _tenor_lines(problem: Problem) -> list[str]:
    lines = []
    for number, pattern in enumerate(problem.tenor_rows):
        comment = "" if number else problem.tenor_comment
        lines += _limit_lines("[[rows]]", "pattern", Limit(pattern, most=0), comment)
    return lines


def problem_text(problem: Problem) -> str:
    """The file, with a comment at each table that says what it asks."""
    lines = [f"# {line}".rstrip() for line in problem.comments]
    lines.append(f"stage = {problem.stage}")
    for method in problem.methods:
        lines += _method_lines(method)
    for call in problem.calls:
        lines += _call_lines(call)
    lines += _query_lines(problem)
    for limit in problem.counts:
        lead = "plain leads" if limit.what == "p" else f"leads with the call {limit.what}"
        lines += _limit_lines("[[count]]", "mark", limit, f"{limit.words().capitalize()} {lead}.")
    for limit in problem.leads:
        lines += _limit_lines("[[leads]]", "letter", limit, f"{limit.words().capitalize()} leads of {limit.what}.")
    for limit in problem.rows:
        lines += _limit_lines("[[rows]]", "pattern", limit, f"{limit.words().capitalize()} rows of this pattern.")
    lines += _tenor_lines(problem)
    if problem.method_changes:
        limit = problem.method_changes
        comment = f"{limit.words().capitalize()} changes of method, from one lead to the next."
        lines += _table("[com]", {"min": limit.least, "max": limit.most}, comment)
    return "\n".join(lines) + "\n"
