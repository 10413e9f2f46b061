"""A method for each question about the nets and gates of a version: those of gatetool (docs/tool-questions.md)."""
from typing import Dict, List

from .asked import TOOLS, Asked
from .dump import names_of
from .lines import line_of
from .netlist import Gate, gate_of
from .values import Change, change_of


class Structure(Asked):
    """What stands in a version. QuestionMissing where the program does not know the questions; Refused where it refuses one."""

    def nets(self) -> List[str]:
        """The names of all nets, in their order. A program that does not know the question makes a dump for it."""
        if self.knows(TOOLS):
            return list(self.kinds())
        return names_of(self.answer("vcd"))

    def kinds(self) -> Dict[str, str]:
        """The kind of each net, `wire`, `tri`, `wand` and so on, in the order of the nets."""
        return self._kinds("nets")

    def inputs(self) -> List[str]:
        """The names of the inputs of the design, in their order."""
        return list(self._kinds("inputs"))

    def gates(self) -> List[Gate]:
        """All gates, in their order."""
        self.see_known(TOOLS)
        return [gate_of(it) for it in self.answer("gates")]

    def gate_named(self, name: str) -> Gate:
        """The gate that has a name."""
        self.see_known(TOOLS)
        [line] = self.answer(line_of("gate", name))
        return gate_of(line)

    def drivers(self, net: str) -> List[Gate]:
        """The gates that drive a net, in their order; none drives an input by itself."""
        return self._gates_of("drivers", net)

    def readers(self, net: str) -> List[Gate]:
        """The gates that read a net, each once, in their order."""
        return self._gates_of("readers", net)

    def points(self, net: str) -> List[Change]:
        """The points of an input, in order of time: also those behind the horizon, and those that change nothing."""
        self.see_known(TOOLS)
        return [change_of(it) for it in self.answer(line_of("points", net))]

    def _kinds(self, question: str) -> Dict[str, str]:
        self.see_known(TOOLS)
        return dict(it.split(" ") for it in self.answer(question))

    def _gates_of(self, question: str, net: str) -> List[Gate]:
        self.see_known(TOOLS)
        names = self.answer(line_of(question, net))
        return [gate_of(line) for [line] in self.answers([line_of("gate", it) for it in names])]
