"""Work in the folder of a search, whose end is told in one sentence."""

import subprocess
import sys
from collections.abc import Callable
from pathlib import Path

from companion.interrupts import ended_by_signals
from companion.mistakes import Mistake
from companion.progress import Progress


def kept(into: Path, progress: Progress, work: Callable[[], None]) -> int:
    """The status of some work. What it had done stands in the folder where it ended by a signal or a mistake."""
    try:
        with ended_by_signals():
            work()
        return 0
    except KeyboardInterrupt:
        progress.close()
        print(f"compose: stopped; what is done stands in {into}, and the same command goes on.", file=sys.stderr)
        return 130
    except Mistake:
        progress.close()
        raise
    except subprocess.SubprocessError as error:
        progress.close()
        raise Mistake(f"the program can't be started ({error}); what is done stands in {into}.") from None
    except OSError as error:
        progress.close()
        where = f"{error.filename}: " if error.filename else ""
        raise Mistake(f"{where}{(error.strerror or str(error)).lower()}; what is done stands in {into}.") from None
