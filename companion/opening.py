"""The tree of a search opened breadth-first, by runs of one turn each."""

from collections.abc import Callable

from companion.checkpoint import Checkpoint, Leads, checkpoint_text, read_checkpoint
from companion.engine import STOPPED, Engine
from companion.folder import Folder

# A cut gives so many shards at most.
MOST_NODES = 1024


class Opener:
    """Opens nodes of one problem."""

    def __init__(self, engine: Engine, problem: bytes, leads: Leads):
        self.engine = engine
        self.problem = problem
        self.leads = leads

    def text(self, found: list[bytes], nodes: list[bytes]) -> bytes:
        return checkpoint_text(Checkpoint(self.problem, found, nodes), self.leads)

    def children(self, nodes: list[bytes]) -> tuple[list[bytes], list[bytes]]:
        """What one turn at each of some nodes finds, and the nodes that it leaves."""
        found, left = [], []
        inputs = [self.text([], [node]) for node in nodes]
        for status, output in self.engine.answers(["--turns", "1"], inputs, self.engine.jobs):
            if status == STOPPED:
                told = read_checkpoint(output, self.leads)
                found += told.found
                left += told.nodes
            else:
                found += output.split(b"\n")[:-2]
        return found, left

    def round(self, found: list[bytes], nodes: list[bytes], wanted: int) -> tuple[list[bytes], list[bytes]]:
        """The shallowest nodes opened, as far as so many nodes are wanted."""
        depth = min(map(len, nodes))
        shallow = [node for node in nodes if len(node) == depth]
        opened = shallow[:self.number(len(nodes), wanted)]
        more, left = self.children(opened)
        taken = set(opened)
        return self.leads.sorted(found + more), [node for node in nodes if node not in taken] + left

    def number(self, nodes: int, wanted: int) -> int:
        """How many nodes are opened at a time, so that there come hardly more than are wanted, and never too many to cut."""
        more = max(1, self.leads.steps - 1)
        return max(1, min((MOST_NODES - nodes) // more, max(self.engine.jobs, (wanted - nodes) // more)))

    def opened(self, text: bytes, wanted: int, after_round: Callable[[Checkpoint], None] = lambda _: None) -> Checkpoint:
        """A checkpoint opened until it has so many nodes or some more, or none left; told after each round."""
        told = read_checkpoint(text, self.leads)
        while told.nodes and len(told.nodes) < wanted:
            found, nodes = self.round(told.found, told.nodes, wanted)
            told = Checkpoint(self.problem, found, nodes)
            after_round(told)
        return told

    def cut(self, checkpoint: Checkpoint, folder: Folder, name: str, most: int = MOST_NODES) -> None:
        """Cuts a checkpoint into shards of one node each, or into so many, which stand in a file as blocks."""
        with folder.part(name) as sink:
            text = checkpoint_text(checkpoint, self.leads)
            into = str(max(1, min(most, len(checkpoint.nodes))))
            self.engine.start_on(["--do", "cut", "--into", into], text, sink, self.engine.jobs).finish()
        folder.keep(name)
