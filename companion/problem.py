"""`./compose problem`: a problem file of methods by name."""

import argparse
import re
import shlex
from dataclasses import dataclass

from companion import faults, library
from companion.bells import STAGE_NAMES, SYMBOLS, Change
from companion.library import Method
from companion.mistakes import Mistake
from companion.notation import NotationFault, change_text, read_notation, write_notation
from companion.problem_file import CallPart, Limit, MethodPart, Problem, problem_text
from companion.tenors import tenor_patterns

USUAL = "usual"


def add_arguments(parser: argparse.ArgumentParser) -> None:
    parser.add_argument("titles", nargs="*", metavar="METHOD", help="a method or a set, by its title; several are spliced")
    parser.add_argument("--length", required=True, metavar="N[-N]", help="the length of a touch, or from and to")
    parser.add_argument("--bobs", nargs="?", const=USUAL, metavar="NOTATION", help="bobs; the usual ones without a notation")
    parser.add_argument("--singles", nargs="?", const=USUAL, metavar="NOTATION", help="singles, in the same way")
    parser.add_argument(
        "--call", action="append", default=[], metavar="MARK=NOTATION[/OVER][@LETTERS]",
        help="a call by hand: its mark, its notation, how many changes at the end of the lead it replaces, and in which methods",
    )
    parser.add_argument("--half-lead", metavar="CHANGE", help="each method also with this change at its half lead")
    parser.add_argument("--letters", metavar="LETTERS", help="the methods' letters, in the order of the titles")
    parser.add_argument("--parts", type=int, default=1, metavar="N", help="so many equal parts")
    for option, words in (("at-most", "at most"), ("at-least", "at least"), ("exactly", "exactly")):
        parser.add_argument(
            f"--{option}", nargs="+", action="append", default=[], metavar="WHAT",
            help=f"{words} so many: 9b is nine bobs, 9p plain leads, 6C leads of C, and 8 '*5678' rows of this pattern",
        )
    parser.add_argument("--changes-of-method", metavar="N-N", help="how often the method changes: 2-8, 2- or -8")
    parser.add_argument("--tenors-together", action="store_true", help="the two heaviest bells together at each lead head")


def run(args: argparse.Namespace) -> int:
    print(problem_text(problem_of(args)), end="")
    return 0


def problem_of(args: argparse.Namespace) -> Problem:
    """The problem that the options ask for, which the program takes."""
    if not args.titles:
        raise Mistake("no method is named: titles stand before the options, since --bobs takes the word after it.")
    chosen = [method for title in args.titles for method in library.find(title)]
    stage = common_stage(chosen)
    least, most = length_of(args.length)
    problem = Problem(stage=stage, methods=[], least=least, most=most, parts=args.parts)
    problem.comments = [f"{title_line(chosen)}.", f"Written by: ./compose problem {command_words(args)}"]
    write_methods(problem, chosen, args)
    problem.calls += [call_by_hand(word, stage) for word in args.call]
    write_limits(problem, args)
    if args.changes_of_method:
        problem.method_changes = Limit("", *bounds_of(args.changes_of_method))
    if args.tenors_together:
        write_tenors(problem)
    refuse_faults(problem)
    return problem


def command_words(args: argparse.Namespace) -> str:
    return " ".join(shlex.quote(word) for word in args.words)


def title_line(chosen: list[Method]) -> str:
    titles = [method.title for method in chosen]
    return titles[0] if len(titles) == 1 else ", ".join(titles[:-1]) + " and " + titles[-1] + ", spliced"


def common_stage(chosen: list[Method]) -> int:
    stages = sorted({method.stage for method in chosen})
    if len(stages) > 1:
        names = " and ".join(STAGE_NAMES[stage] for stage in stages)
        raise Mistake(f"methods are spliced on one number of bells, and these are {names}.")
    return stages[0]


def length_of(word: str) -> tuple[int, int]:
    match = re.fullmatch(r"(\d+)(?:-(\d+))?", word)
    if not match:
        raise Mistake(f"--length takes a number or two, as 1250-1350, and not “{word}”.")
    return int(match[1]), int(match[2] or match[1])


def bounds_of(word: str) -> tuple[int | None, int | None]:
    match = re.fullmatch(r"(\d*)(-?)(\d*)", word)
    if not match or not (match[1] or match[3]):
        raise Mistake(f"--changes-of-method takes a number or two, as 2-8, and not “{word}”.")
    if not match[2]:
        return int(match[1]), int(match[1])
    return (int(match[1]) if match[1] else None), (int(match[3]) if match[3] else None)


# Methods and their calls


def write_methods(problem: Problem, chosen: list[Method], args: argparse.Namespace) -> None:
    if any(method.calls_at for method in chosen):
        write_sixes(problem, chosen, args)
        return
    letters = letters_for(chosen, args.letters)
    for method, letter in zip(chosen, letters):
        problem.methods.append(MethodPart(letter, method.title, method.notation))
    write_usual_calls(problem, chosen, args)
    if args.half_lead:
        write_half_leads(problem, chosen, args.half_lead)


def letters_for(chosen: list[Method], asked: str | None) -> list[str]:
    """The letters of methods: those that were asked for, or for each the first free one of its title."""
    if asked is not None:
        if len(asked) != len(chosen):
            raise Mistake(f"--letters has {len(asked)} letters, and there are {len(chosen)} methods.")
        return list(asked)
    taken: list[str] = []
    for method in chosen:
        taken.append(free_letter(method.title.upper(), taken))
    return taken


def free_letter(title: str, taken: list[str]) -> str:
    alphabet = "ABCDEFGHIJKLMNOPQRSTUVWXYZ"
    return next(letter for letter in title + alphabet if letter in alphabet and letter not in taken)


@dataclass(frozen=True)
class UsualCall:
    """A kind of call that methods have by custom."""

    mark: str
    name: str
    option: str | None

    def of(self, method: Method) -> str | None:
        """The call's notation in a method, or None where it is not asked for."""
        if self.option is None or self.option != USUAL:
            return self.option
        usual = method.bob if self.mark == "b" else method.single
        if usual is None:
            raise Mistake(f"{method.title} has no usual {self.name}: give its notation.")
        return usual


def usual_calls(args: argparse.Namespace) -> list[UsualCall]:
    return [UsualCall("b", "bob", args.bobs), UsualCall("s", "single", args.singles)]


def write_usual_calls(problem: Problem, chosen: list[Method], args: argparse.Namespace) -> None:
    """Bobs and singles: one call for all methods that have it in the same notation."""
    for call in usual_calls(args):
        letters_by_notation: dict[str, str] = {}
        for method, part in zip(chosen, problem.methods):
            notation = call.of(method)
            if notation:
                letters_by_notation[notation] = letters_by_notation.get(notation, "") + part.letter
        for notation, letters in letters_by_notation.items():
            methods = letters if len(letters_by_notation) > 1 else None
            comment = call_comment(call.name, notation, problem.stage, methods)
            problem.calls.append(CallPart(call.mark, notation, methods=methods, comment=comment))


def changes_of(notation: str, stage: int, whose: str) -> list[Change]:
    try:
        return read_notation(notation, stage)
    except NotationFault as fault:
        raise Mistake(f"{whose} has the notation “{notation}”: {faults.notation_words(notation, fault, stage)}.") from None


def call_comment(name: str, notation: str, stage: int, methods: str | None, over: int | None = None) -> str:
    changes = changes_of(notation, stage, f"the {name}")
    count = over if over is not None else len(changes)
    where = "the last change" if count == 1 else f"the last {count} changes"
    whose = f" of {', '.join(methods)}" if methods else ""
    return f"A {name}: {write_notation(changes)} in place of {where} of the lead{whose}."


def call_by_hand(word: str, stage: int) -> CallPart:
    match = re.fullmatch(r"([a-z])=([^/@=]+)(?:/(\d+))?(?:@([A-Z]+))?", word)
    if not match:
        raise Mistake(f"--call takes MARK=NOTATION[/OVER][@LETTERS], as b=14 or e=14/5@PD, and not “{word}”.")
    mark, notation, over, methods = match.groups()
    replaced = int(over) if over else None
    comment = call_comment(f"call {mark}", notation, stage, methods, replaced)
    return CallPart(mark, notation, replaced, methods, comment)


def write_half_leads(problem: Problem, chosen: list[Method], notation: str) -> None:
    """Each method once more, with a call at its half lead."""
    change = changes_of(notation, problem.stage, "--half-lead")
    if len(change) != 1:
        raise Mistake(f"--half-lead takes one change, and “{notation}” has {len(change)}.")
    taken = [part.letter for part in problem.methods]
    originals = list(zip(chosen, list(problem.methods)))
    for method, part in originals:
        lead = method.changes()
        half = len(lead) // 2 - 1
        called = write_notation([*lead[:half], change[0], *lead[half + 1:]])
        letter = free_letter("H", taken)
        taken.append(letter)
        comment = (
            f"{part.letter} with a call at its half lead: {change_text(change[0])} in place of {change_text(lead[half])}."
        )
        problem.methods.append(MethodPart(letter, f"{method.title}, called at the half lead", called, comment))
        for call in problem.calls:
            if call.methods and part.letter in call.methods:
                call.methods += letter


def write_sixes(problem: Problem, chosen: list[Method], args: argparse.Namespace) -> None:
    """A principle by leads with two places for calls: the letters tell of the first place, the marks of the second."""
    method = chosen[0]
    if len(chosen) > 1 or args.half_lead:
        raise Mistake(f"{method.title} is neither spliced nor called at half leads here.")
    lead = method.changes()
    first, second = (place - 1 for place in method.calls_at)
    problem.comments.append("A lead is two sixes. Its letter tells of the first six end: P is plain, B a bob, S a single.")
    problem.comments.append("Its mark tells of the second six end: p is plain, b a bob, s a single.")
    problem.methods.append(MethodPart("P", method.title, method.notation))
    for call in usual_calls(args):
        notation = call.of(method)
        if notation is None:
            continue
        change = changes_of(notation, problem.stage, f"the {call.name}")
        if len(change) != 1:
            raise Mistake(f"a {call.name} of {method.title} is one change, and “{notation}” has {len(change)}.")
        called = write_notation([*lead[:first], *change, *lead[first + 1:]])
        name = f"{method.title}, a {call.name} at the first six end"
        problem.methods.append(MethodPart(call.mark.upper(), name, called))
        tail = write_notation([*change, *lead[second + 1:]])
        comment = f"A {call.name} at the second six end, {change_text(change[0])}, and the changes after it."
        problem.calls.append(CallPart(call.mark, tail, comment=comment))


# What is asked of a touch


def write_limits(problem: Problem, args: argparse.Namespace) -> None:
    asked = [(words, True, False) for words in args.at_least]
    asked += [(words, False, True) for words in args.at_most]
    asked += [(words, True, True) for words in args.exactly]
    for words, is_least, is_most in asked:
        number, what, limits = limit_of(problem, words)
        limit = next((limit for limit in limits if limit.what == what), None)
        if limit is None:
            limit = Limit(what)
            limits.append(limit)
        if is_least:
            limit.least = number
        if is_most:
            limit.most = number


def limit_of(problem: Problem, words: list[str]) -> tuple[int, str, list[Limit]]:
    """A number, of what, and the list in which it belongs."""
    match = re.fullmatch(r"(\d+)([A-Za-z])", words[0])
    if len(words) == 1 and match:
        return int(match[1]), match[2], problem.counts if match[2].islower() else problem.leads
    if len(words) == 2 and words[0].isdecimal():
        if not faults.is_pattern(words[1], problem.stage):
            stage = STAGE_NAMES[problem.stage]
            raise Mistake(f"“{words[1]}” is no pattern for {stage}: {faults.pattern_words(words[1], problem.stage)}.")
        return int(words[0]), words[1], problem.rows
    told = " ".join(words)
    raise Mistake(f"a limit is a number with a mark or a letter, as 9b or 6C, or a number and a pattern, and not “{told}”.")


def leads_of(problem: Problem) -> tuple[list[list[Change]], list[list[Change]]]:
    """The plain leads, and all leads."""
    plain, every = [], []
    for part in problem.methods:
        lead = changes_of(part.notation, problem.stage, part.name)
        plain.append(lead)
        every.append(lead)
        for call in problem.calls:
            if call.methods is None or part.letter in call.methods:
                changes = changes_of(call.notation, problem.stage, f"the call {call.mark}")
                over = call.over if call.over is not None else len(changes)
                every.append(lead[:max(0, len(lead) - over)] + changes)
    return plain, every


def write_tenors(problem: Problem) -> None:
    if problem.stage < 6:
        raise Mistake("--tenors-together is for six bells or more.")
    plain, every = leads_of(problem)
    half = [part for part in problem.methods if "half lead" in part.name]
    found = tenor_patterns(plain[:len(plain) - len(half)], every, problem.stage)
    problem.tenor_rows = found.patterns
    heavy = " and ".join(SYMBOLS[problem.stage - 2:problem.stage])
    comment = f"The tenors, {heavy}, stay together: no touch has a row of these patterns."
    if found.is_wider:
        comment += "\nThey may swap where a call swaps them: no row tells a course from that with the tenors the other way round."
    problem.tenor_comment = comment


def refuse_faults(problem: Problem) -> None:
    """What the program would refuse is told before it is written."""
    fault = faults.first_fault(problem_text(problem).encode())
    if fault:
        raise Mistake(f"the program would refuse this problem: {fault.words}.")
