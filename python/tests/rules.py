"""The outcomes that a client has to report, by the tables of docs/PROFILE.md alone: nothing of the package decides."""
import paths  # noqa: F401

import bolt
from fakes import FAILURE, SUCCESS

# The phase after the SUCCESS of a request, by the phase before it.
NEXT = {("FRESH", "HELLO"): "UNAUTH", ("UNAUTH", "LOGON"): "READY", ("READY", "RUN"): "STREAMING",
        ("READY", "BEGIN"): "TX_READY", ("STREAMING", "PULL"): "READY", ("STREAMING", "DISCARD"): "READY",
        ("TX_READY", "RUN"): "TX_STREAMING", ("TX_READY", "COMMIT"): "READY", ("TX_READY", "ROLLBACK"): "READY",
        ("TX_STREAMING", "PULL"): "TX_READY", ("TX_STREAMING", "DISCARD"): "TX_READY"}
# The requests that commit: in the second phase a query of its own, in the first a transaction.
COMMITS = {("TX_READY", "COMMIT"), ("STREAMING", "PULL"), ("STREAMING", "DISCARD")}
ENDS = {"FRESH", "UNAUTH", "DEFUNCT"}


def after(phase, kind, has_count):
    """Returns the phases that may follow a request whose answer isn't known. A PULL of all rows leaves none."""
    if phase in ("DEFUNCT", "HALTED") and kind != "RESET":
        return {phase}
    if kind == "RESET":
        return {"DEFUNCT" if phase in ENDS else "READY"}
    following = {NEXT.get((phase, kind), "DEFUNCT"), "DEFUNCT" if phase in ENDS else "HALTED"}
    return following | ({phase} if has_count and (phase, kind) in NEXT else set())


class Asked:
    """A request as the server took it, and its answer: where its bytes begin, and where those of its answer end.

    `has_count` is true of a PULL or DISCARD of so many rows, not of all."""

    def __init__(self, kind, has_count, begins, answer, has_more, told):
        self.kind, self.has_count, self.begins, self.answer = kind, has_count, begins, answer
        self.has_more, self.told = has_more, told

    def outcome(self, phase):
        """Returns the outcome by its answer, which came, and the next phase."""
        if self.answer != SUCCESS:
            return bolt.REFUSED if self.answer == FAILURE else bolt.IGNORED, "HALTED"
        if self.has_more:
            return bolt.DONE, phase
        is_commit = (phase, self.kind) in COMMITS
        return bolt.COMMITTED if is_commit else bolt.DONE, "READY" if self.kind == "RESET" else NEXT[phase, self.kind]


def outcomes(requests, heard, gone):
    """Returns the outcome of each request of a connection that was lost.

    `heard` bytes of the answers came. `gone` bytes of the requests may have gone out."""
    found, phases = [], {"FRESH"}
    for it in requests:
        if it.told <= heard:
            outcome, phase = it.outcome(*phases)
            phases = {phase}
        else:
            # What could have been committed may be, unless no byte of it has gone out.
            could = any((phase, it.kind) in COMMITS for phase in phases)
            outcome = bolt.UNKNOWN if could and it.begins < gone else bolt.LOST
            phases = {following for phase in phases for following in after(phase, it.kind, it.has_count)}
        found.append(outcome)
    return found
