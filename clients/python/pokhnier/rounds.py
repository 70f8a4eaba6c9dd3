"""The lines of a round, from what waits for it."""

from __future__ import annotations

from concurrent.futures import Future
from dataclasses import dataclass, field

from .calls import Call, Ended, GroupPlan, Runs, Settled
from .errors import Canceled
from .names import error_text, text_of
from .outcomes import Ok, Stopped, Wrong
from .plan import Plan
from .results import Results
from .wishes import (
    AddCall,
    AddGroup,
    AskError,
    AskFirst,
    CancelCall,
    CancelGroup,
    CutGroup,
    End,
    Finish,
    Wish,
)


@dataclass
class Round:
    """The lines of a round, and what can be reported once it is durable."""
    plan: Plan
    results: Results
    moment: int
    lines: list[str] = field(default_factory=list)
    wishes: list[Wish] = field(default_factory=list)
    fresh: set[int] = field(default_factory=set)
    good: list[Call] = field(default_factory=list)
    failed: set[GroupPlan] = field(default_factory=set)
    canceled: list[Future[None]] = field(default_factory=list)
    finishes: list[Future[bool]] = field(default_factory=list)
    firsts: list[AskFirst] = field(default_factory=list)
    asked: list[Call] = field(default_factory=list)
    asks: bool = False

    def add(self, wish: Wish) -> None:
        self.wishes.append(wish)
        match wish:
            case AddGroup(group):
                self.lines += self.plan.add_group(group)
            case AddCall(call):
                self.lines += self.plan.add_call(call)
                self.fresh.add(call.number)
            case End():
                self.end(wish)
            case CancelCall(call, why, answer):
                call.reason = call.reason or why
                self.cancel(f"cancel {call.number} {text_of(why)}", answer)
            case CancelGroup(group, why, answer):
                self.results.add((group.name, ""), 0, Stopped(why))
                self.cancel(f"done {group.number} {text_of(why)}", answer)
            case CutGroup(group):
                self.lines += [f"size {group.pool} 0"] if group.pool is not None else []
            case AskFirst(group):
                self.lines.append(f"first {group.number}")
                self.firsts.append(wish)
            case AskError(call):
                self.lines.append(f"ask {call.number}")
                self.asked.append(call)
            case Finish(answer):
                self.lines.append("done 0 finished")
                self.finishes.append(answer)

    def end(self, wish: End) -> None:
        """The results have the end before the round is written."""
        call, outcome = wish.call, wish.outcome
        assert isinstance(call.state, Runs)
        one = call.state.one
        if isinstance(outcome, Wrong) and isinstance(one.why, Canceled):
            # (It failed before it saw that it had to stop. The program records a cancel.)
            outcome = Stopped(str(one.why))
        self.results.add(call.name, one.attempt, outcome)
        match outcome:
            case Ok():
                self.lines.append(f"ended {call.state.task} ok")
                self.good.append(call)
            case Wrong(text):
                self.lines.append(f"ended {call.state.task} error {error_text(text)}")
                self.failed.add(call.group)
                self.asks = True
            case Stopped(text):
                self.lines.append(f"ended {call.state.task} error {text_of(text)}")
                self.asks = True
        call.state = Ended(outcome, wish.seen)

    def has_failure_before(self, wish: Wish) -> bool:
        """Whether this is a failure in a group that an earlier one of the round may cancel. Then it
        comes in the next round, so that the store knows which one was the first."""
        match wish:
            case End(call, Wrong(), _):
                return call.group.way == "cancel" and call.group in self.failed
            case _:
                return False

    def cancel(self, line: str, answer: Future[None]) -> None:
        self.lines.append(line)
        self.canceled.append(answer)
        self.asks = True

    def whole(self) -> list[str]:
        """All lines of the round."""
        return [*self.lines, f"now {self.moment}", *(["standings"] if self.asks else [])]

    def unanswered(self) -> list[Wish]:
        """Those for whose answer somebody waits."""
        return [it for it in self.wishes
                if isinstance(it, CancelCall | CancelGroup | AskFirst | Finish)]

    def settle(self) -> None:
        """The round is durable."""
        for call in self.good:
            assert isinstance(call.state, Ended) and isinstance(call.state.outcome, Ok)
            value, call.state = call.state.outcome.value, Settled()
            call.future.set_result(value)
        for answer in self.canceled:
            answer.set_result(None)
