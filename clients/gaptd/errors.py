"""Errors of a session: one class for each kind of refusal, and two for a program that ends or talks nonsense."""
from __future__ import annotations

from typing import Any, Dict, List, Mapping, Optional, Sequence, Type

STATUSES: Dict[int, str] = {
    0: "all jobs were answered Ok",
    1: "some job was refused",
    2: "the command doesn't take its words",
    3: "reading failed",
    4: "writing failed",
    5: "memory ran out outside a job",
    6: "the input has more than 2^32 bytes",
}


class GaptdError(Exception):
    """Everything that can go wrong with a session."""


class ProtocolError(GaptdError):
    """A reply isn't the one that is due: no JSON, another number, another name."""


class ProgramMissing(GaptdError):
    """The command that should start the program can't be run."""

    def __init__(self, program: Sequence[str], error: OSError) -> None:
        super().__init__(f"the program can't be started by {' '.join(program)}: {error.strerror or error}. Its command is what --program "
                         f"says, or else the environment variable GAPTD, or else gaptd.sh of the repository")
        self.program = list(program)


class ProgramEnded(GaptdError):
    """The program ended, or was ended, while replies were due. `replies` are those that came, `notes` its last words."""

    def __init__(self, status: Optional[int], notes: List[str], replies: List[Any]) -> None:
        meaning = STATUSES.get(status if status is not None else -1, "it was ended from outside or crashed")
        super().__init__("; ".join([f"the program ended with status {status}: {meaning}", *notes[-3:]]))
        self.status, self.notes, self.replies = status, notes, replies


class JobRefused(GaptdError):
    """A job was refused. `error` is the error object of its reply, whose members can be read as attributes too."""

    kind = ""

    def __init__(self, job: Optional[str], n: int, error: Mapping[str, Any]) -> None:
        details = ", ".join(f"{key} {value}" for key, value in error.items() if key != "kind")
        super().__init__(f"job {job} (number {n}) is refused as {error['kind']}" + (f": {details}" if details else ""))
        self.job, self.n, self.error = job, n, dict(error)

    def __getattr__(self, name: str) -> Any:
        error = self.__dict__.get("error", {})
        if name in error:
            return error[name]
        raise AttributeError(name)


class LineTooLong(JobRefused):
    """The job has more than 16,777,216 bytes."""

    kind = "line_too_long"


class NoJson(JobRefused):
    """The line isn't JSON as gaptd reads it."""

    kind = "json"


class BadField(JobRefused):
    """A field is missing or of the wrong form; `field` is its path."""

    kind = "field"


class UnknownOperation(JobRefused):
    """gaptd has no such operation."""

    kind = "op"


class BadFormula(JobRefused):
    """A formula or a term has a fault: `what`, at the byte `at` of `field`."""

    kind = "formula"


class BadProblem(JobRefused):
    """The problem text has a fault: `what`, at the byte `at`."""

    kind = "tptp"


class NameTaken(JobRefused):
    """An earlier job has taken the name."""

    kind = "name_taken"


class UnknownName(JobRefused):
    """No earlier job has the name `name`."""

    kind = "unknown_name"


class WrongKind(JobRefused):
    """The job `name` was refused, or holds another kind of value."""

    kind = "kind"


class NoStep(JobRefused):
    """The list of steps is empty."""

    kind = "empty"


class FaultyStep(JobRefused):
    """The step `step` of a proof is wrong, for the cause `cause`; of a premise, `premise` says which."""

    kind = "step"


class BudgetSpent(JobRefused):
    """The budget doesn't suffice."""

    kind = "budget"


class FaultyRefutation(JobRefused):
    """The step `step` of a refutation is wrong, for the cause `cause`."""

    kind = "refutation"


class OutOfMemory(JobRefused):
    """Memory ran out while the job was run, or while one that it names was."""

    kind = "memory"


class HasCut(JobRefused):
    """The proof has a cut at the step `step`, and the operation takes proofs without cuts."""

    kind = "cut"


class Quantified(JobRefused):
    """The formula `formula` on the side `side` has a quantifier."""

    kind = "quantified"


class NoPartition(JobRefused):
    """The formula `formula` on the side `side` is in a part or in the end sequent alone."""

    kind = "partition"


class NotPrenex(JobRefused):
    """The formula `formula` on the side `side` isn't weak quantifiers alone (! on the left, ? on the right) over a formula without any."""

    kind = "not_prenex"


class HasDefinition(JobRefused):
    """The formula `formula` on the side `side` has a defined symbol."""

    kind = "defined"


class Falsified(JobRefused):
    """The sequent is false if just the atoms `true` are true."""

    kind = "falsified"


class FaultyNode(JobRefused):
    """The node `node` of an expansion is wrong, for the cause `cause`."""

    kind = "node"


class FaultyRoot(JobRefused):
    """The root `root` of an expansion is wrong, for the cause `cause`."""

    kind = "root"


class EigenvariableTwice(JobRefused):
    """Two strong quantifiers have the variable `var`."""

    kind = "eigen_twice"


class EigenvariableFree(JobRefused):
    """The variable `var` of a strong quantifier is free in the sequent."""

    kind = "eigen_free"


class Cycle(JobRefused):
    """Each of the variables `cycle` has to come before the next, and the last before the first."""

    kind = "cycle"


class TooMany(JobRefused):
    """The proof has `count` instances, more than cut introduction takes."""

    kind = "too_many"


class DefinedTwice(JobRefused):
    """The definition `name` has the symbol of one before it."""

    kind = "def_twice"


class DefinitionOpen(JobRefused):
    """The variable `var` is free in the body of the definition and isn't among its variables."""

    kind = "def_free"


class DefinitionTooLarge(JobRefused):
    """The body of the definition is too large when it is unfolded."""

    kind = "def_large"


class NotGround(JobRefused):
    """The clause `clause` of the problem has a variable."""

    kind = "not_ground"


class RoundsSpent(JobRefused):
    """Neither a refutation nor saturated clauses were reached within the rounds."""

    kind = "rounds"


CLASSES: Dict[str, Type[JobRefused]] = {one.kind: one for one in JobRefused.__subclasses__()}


def refusal(job: Optional[str], n: int, error: Mapping[str, Any]) -> JobRefused:
    """The exception for an error object, of the class of its kind."""
    return CLASSES.get(error.get("kind", ""), JobRefused)(job, n, error)
