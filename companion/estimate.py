"""How long the rest of a search takes, by what its shards took so far."""

import math
import statistics
from dataclasses import dataclass, field

# The rest is told from so many shards on that were begun.
FEWEST = 12


@dataclass
class Family:
    """A shard of the first cut with all that came of it. All times are in seconds of one run."""

    spent: float = 0.0
    # Shards that it was split into and that wait, and the ages of its runs at work.
    waiting: int = 0
    running: list[float] = field(default_factory=list)

    def rest(self, child: float) -> float:
        """About what is left of it, where a shard that waits takes so long: a run at work takes as long again."""
        return self.waiting * child + sum(self.running)


@dataclass(frozen=True)
class Rest:
    """About how many seconds are left, and from how many to how many."""

    likely: float
    least: float
    most: float


def rest_of(families: list[Family], unbegun: int, child: float, at_once: float) -> Rest | None:
    """The rest of a search of which these families were begun; None where it is too early to tell.

    So many runs go on at once; a shard that comes of one that was split takes about `child` seconds.

    Shards are begun in a random order, so the families that were begun are a sample of all. The range is twice the
    standard error of what the others take in all, where what is left of a family at work may be off by all of itself.
    """
    if len(families) < FEWEST:
        return None
    rests = [family.rest(child) for family in families]
    totals = [family.spent + sum(family.running) + rest for family, rest in zip(families, rests)]
    mean, spread = statistics.fmean(totals), statistics.stdev(totals)
    likely = unbegun * mean + sum(rests)
    variance = spread ** 2 * (unbegun + unbegun ** 2 / len(families)) + sum(rest ** 2 for rest in rests)
    off = 2 * math.sqrt(variance)
    return Rest(likely / at_once, max(0.0, likely - off) / at_once, (likely + off) / at_once)


def duration(seconds: float) -> str:
    """A time as one says it."""
    minutes = round(seconds / 60)
    if seconds < 99.5:
        return f"{max(1, round(seconds))} s"
    if minutes < 100:
        return f"{minutes} min"
    if minutes < 48 * 60:
        return f"{minutes // 60} h {minutes % 60} min"
    return f"{round(minutes / 1440, 1):g} days"


def rest_words(rest: Rest | None) -> str:
    if rest is None:
        return "the rest is not known yet"
    return f"about {duration(rest.likely)} left ({duration(rest.least)} to {duration(rest.most)})"
