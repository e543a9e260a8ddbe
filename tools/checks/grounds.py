"""What a reader has to believe: the definitions that a promise, the contract of a public function, or another definition rests on.

The promises are the types in crates/promises/proofs/Promises.antt, the contracts are the clauses of the code, and the laws of one answer
are the types in crates/one_answer/proofs/OneAnswer.antt.
"""
import dataclasses
import re

from checks import antt, contracts, crates, restated
from checks.definitions import Definition, Definitions

LAW_FILES = (restated.FILE, contracts.LAWS)


class Unknown(Exception):
    """A name that stands for nothing here; it says so."""


@dataclasses.dataclass(frozen=True)
class Contract:
    """A public function's contract: its crate, its name as it is called, its clauses, and the definitions that they name."""

    crate: str
    called: str
    clauses: tuple
    named: frozenset


class Grounds:
    """The promises and the public contracts of a repository, over its definitions."""

    def __init__(self, things):
        self.things = things
        self.definitions = Definitions(things)
        self.contracts = [contract for crate in crates.libraries(things.top) for contract in self.contracts_of(crate)]
        self.stated = {path: self.stated_in(path) for path in LAW_FILES if (things.top / path).is_file()}

    def contracts_of(self, crate):
        """The contracts of a library's public functions."""
        for reader in self.things.readers[crate]:
            uses = [use for line, text in reader.ghosts for use in antt.uses_of(antt.Item(line, text))]
            hidden = {thing.name for thing in self.things.declared(crate, "struct", "enum") if not thing.public}
            stated = [
                (contracts.called(function), function.stated)
                for function in reader.functions
                if function.public or function.trait and function.stated and function.owner not in hidden
            ]
            stated += [(f"{one.owner}::{one.name}", [one.stated]) for one in reader.members if one.owner not in hidden]
            for called, clauses in stated:
                named = self.definitions.named_in(" ".join(clauses), uses)
                yield Contract(crate, f"{crate}::{called}", tuple(clauses), frozenset(named))

    def stated_in(self, path):
        """The laws of a file by their names: each one's type, and the definitions that it names, those of contracts in it too."""
        try:
            uses, stated = antt.strict_file((self.things.top / path).read_text())
        except antt.Unreadable as why:
            raise antt.Unreadable(f"{path}: {why}") from why
        modules = {use.name: use.module for use in uses if not use.item}
        laws = {}
        for law in stated:
            named = self.definitions.named_in(law.type, uses)
            for alias in re.findall(rf"({antt.NAME})\.Post\b", law.type):
                named |= self.named_by(modules.get(alias, ""))
            laws[law.name] = (law.type, named)
        return laws

    def named_by(self, module):
        """What the contract names that Rattle has in a module."""
        for crate in crates.libraries(self.things.top):
            for function in self.things.functions(crate):
                if function.public and self.things.reads_module(crate, function) == module:
                    called = f"{crate}::{contracts.called(function)}"
                    return next(contract.named for contract in self.contracts if contract.called == called)
        return frozenset()

    def find(self, name):
        """What a name stands for, in words, and the definitions that it names itself."""
        entry = re.fullmatch(r"(\w+): (\S+)", name)
        if entry:
            one = self.definitions.find(*entry.groups())
            if one is None:
                raise Unknown(f"crate {entry.group(1)} has no definition {entry.group(2)}")
            return f"the definition {one}", {one}
        if "::" in name:
            contract = next((contract for contract in self.contracts if contract.called == name), None)
            if contract is None:
                raise Unknown(f"there is no public function {name}")
            return f"the contract of {name}:\n  " + "\n  ".join(contract.clauses), set(contract.named)
        promises = self.stated.get(restated.FILE, {})
        if name not in promises:
            raise Unknown(f"{name} is no promise of {restated.FILE}, no `crate::function` and no `crate: definition`")
        kind, named = promises[name]
        return f"the promise {name}:\n  {kind}", set(named)

    def believed(self):
        """All definitions that a promise, a public contract or a law of one answer rests on."""
        roots = {one for contract in self.contracts for one in contract.named}
        roots |= {one for laws in self.stated.values() for _, named in laws.values() for one in named}
        return {one for one in self.definitions.rested_on(roots) if isinstance(one, Definition)}

    def private(self):
        """The definitions that nothing public rests on, the lowest first."""
        return self.definitions.in_order(set(self.definitions.all) - self.believed())
