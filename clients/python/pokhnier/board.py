"""What a run knows of its calls, by the answers of `night drive`."""

from __future__ import annotations

import threading
from collections.abc import Iterator
from contextlib import contextmanager, suppress

from .calls import Call, Ended, GroupPlan, Runs, Settled, Waits, has_failed
from .clock import now
from .current import Try
from .errors import Canceled, Error, Interrupted
from .names import error_text
from .orders import Begin, ErrorOf, First, Later, Order, Rebound, Stands, Stop
from .outcomes import NO_TEXT, Ok, Wrong, raised, wrong
from .plan import Plan
from .results import Results
from .rounds import Round
from .wishes import AddCall, AskError, CancelCall, End, Wish


class Board:
    """The calls of a run. Its lock is held while a call changes from one state to another."""

    def __init__(self, plan: Plan, results: Results) -> None:
        self.plan, self.results = plan, results
        self.lock = threading.RLock()
        self.unknown: set[int] = set()
        self.running: dict[int, Call] = {}
        self.later: int | None = None
        self.cut: Error | None = None
        # These are opened after each round. (Ctrl-C may come when a future's lock was just taken.
        # Then the thread of the store would never get that lock. It doesn't take these.)
        self.gates: list[threading.Lock] = []
        # What the answers of the program have it asked in the next round.
        self.questions: list[Wish] = []

    def round(self, wishes: list[Wish]) -> tuple[Round, list[Wish]]:
        """The next round, with all of these wishes for which it isn't too late, and those that come
        in the round after it."""
        made, late, rest = Round(self.plan, self.results, now()), list[Wish](), list[Wish]()
        made.asks = not wishes or self.later is not None and made.moment >= self.later
        with self.lock:
            for wish in wishes:
                if not self.is_wanted(wish):
                    late.append(wish)
                elif made.has_failure_before(wish):
                    rest.append(wish)
                else:
                    made.add(wish)
            self.unknown |= made.fresh
        for wish in late:
            self.drop(wish)
        return made, rest

    def is_wanted(self, wish: Wish) -> bool:
        """Whether a round has this."""
        match wish:
            case AddCall(call):
                return not self.is_cut(call) and not isinstance(call.state, Settled)
            case CancelCall(call):
                return call.number >= 0 and not isinstance(call.state, Settled)
            case End(call, outcome, _):
                return isinstance(call.state, Runs) and (
                    isinstance(outcome, Ok) or not call.state.one.is_cut())
            case _:
                pass
        return True

    def drop(self, wish: Wish) -> None:
        """It is too late for this."""
        match wish:
            case AddCall(call):
                self.fail(call, self.cut_of(call))
            case End(call, _, _) if isinstance(call.state, Runs):
                self.fail(call, call.state.one.why or self.cut_of(call))
            case CancelCall(_, _, answer):
                answer.set_result(None)
            case _:
                pass

    # Answers

    def take(self, made: Round, orders: list[Order]) -> None:
        """The round is durable, and these are its orders."""
        self.later = None
        self.begin_all(orders)
        made.settle()
        for order in orders:
            match order:
                case Stop(task, why):
                    self.stop(self.running.get(task), Canceled(why))
                case Stands(command, standing):
                    self.stand(self.plan.call(command), standing)
                case Later(moment):
                    self.later = moment
        texts = {it.group: it.text for it in orders if isinstance(it, First)}
        for asked in made.firsts:
            asked.answer.set_result(texts.get(asked.group.number))
        errors = {it.command: it.text for it in orders if isinstance(it, ErrorOf)}
        for call in made.asked:
            self.fail_for_good(call, Wrong(errors.get(call.number, NO_TEXT)))

    @contextmanager
    def gate(self) -> Iterator[threading.Lock]:
        """A lock that can be taken once after each round."""
        gate = threading.Lock()
        self.gates.append(gate)
        try:
            yield gate
        finally:
            self.gates.remove(gate)

    def open_gates(self) -> None:
        """Lets those look who wait for the end of calls."""
        for gate in list(self.gates):
            with suppress(RuntimeError):
                gate.release()

    def begin_all(self, orders: list[Order]) -> None:
        """Writes which tries begin, and only then calls their functions."""
        bound = [it for order in orders if isinstance(order, Begin | Rebound)
                 if (it := self.bind(order))]
        try:
            self.results.flush()
        except OSError:
            for call in bound:  # (their functions aren't called)
                call.state = Waits()
            raise
        for call in bound:
            assert isinstance(call.state, Runs)
            call.runner.begin(call, call.state.one)

    def bind(self, order: Begin | Rebound) -> Call | None:
        """Notes which task a call has. Returns the call if its function has to be called."""
        call = self.plan.call(order.command)
        with self.lock:
            if call is None:
                return None
            if isinstance(order, Rebound) and isinstance(call.state, Runs):
                one = call.state.one
                one.attempt = order.attempt
            elif isinstance(call.state, Waits | Ended) and not self.is_cut(call):
                one = Try(*call.name, order.attempt)
            else:
                return None
            call.state = Runs(order.task, one)
            self.running[order.task] = call
            self.unknown.discard(call.number)
        self.results.add(call.name, one.attempt, None)
        return call if isinstance(order, Begin) else None

    def stand(self, call: Call | None, standing: str) -> None:
        """What the program knows of a call."""
        if call is None:
            return
        self.unknown.discard(call.number)
        if isinstance(call.state, Settled | Runs):
            return
        seen = call.state.seen if isinstance(call.state, Ended) else None
        outcome = self.results.outcome(call.name)
        match standing:
            case "ok":
                self.settle(call, Settled())
                call.future.set_result(outcome.value if isinstance(outcome, Ok) else None)
            case "failed" if isinstance(outcome, Wrong):
                self.fail_for_good(call, outcome, seen)
            case "failed":
                call.state = Waits()
                self.questions.append(AskError(call))
            case "canceled" | "given-up":
                reason = self.results.reason(call.name)
                self.fail(call, Canceled(reason or call.reason or "canceled"))
            case _ if self.is_cut(call):
                self.fail(call, self.cut_of(call))
            case _:
                call.state = Waits()

    def fail_for_good(self, call: Call, outcome: Wrong, seen: BaseException | None = None) -> None:
        """The last try of a call has failed, and it has no retry left."""
        if not isinstance(call.state, Settled):
            self.settle(call, Settled(failed=True))
            call.future.set_exception(raised(outcome, seen))

    def error_with(self, group: GroupPlan, text: str) -> BaseException:
        """The error of a group that has this text in the store. If the texts of several are cut off
        to this one, it is the one that stands first in the results."""
        calls = {it.name: it for it in self.plan.calls if it and it.group is group}
        for name, outcome in self.results.failures(group.name):
            if error_text(outcome.text) == text:
                call = calls.get(name)
                error = call.future.exception() if call and has_failed(call) else None
                return error or raised(outcome)
        return raised(Wrong(text))

    def lost(self) -> list[Wish]:
        """The ends of functions that can't go on any more."""
        found: list[Wish] = []
        for call in self.plan.calls:
            if call and isinstance(call.state, Runs) and call.runner.is_lost():
                why = Interrupted("its event loop is closed")
                call.state.one.stop(why)
                found.append(End(call, wrong(why), why))
        return found

    def stop(self, call: Call | None, why: Error) -> None:
        """The function of a call has to stop, if it runs."""
        if call and isinstance(call.state, Runs):
            call.state.one.stop(why)
            call.runner.stop()

    # The end of a run

    def is_cut(self, call: Call) -> bool:
        return self.cut is not None or call.group.is_cut

    def cut_of(self, call: Call) -> Error:
        """Why a call isn't called any more in this run."""
        return self.cut or Interrupted("its block has ended early")

    def cut_group(self, group: GroupPlan, why: Error) -> None:
        """For this run, the functions of a group have to stop, and none begins."""
        with self.lock:
            group.is_cut = True
            calls = [it for it in self.plan.calls if it and it.group is group]
        for call in calls:
            self.stop(call, why)
            if isinstance(call.state, Waits):
                self.fail(call, why)
        self.open_gates()

    def end(self, why: Error) -> None:
        """The run has ended. Functions that run go on until they ask."""
        with self.lock:
            self.cut = self.cut or why
            calls = [it for it in self.plan.calls if it]
        for call in calls:
            self.stop(call, why)
            if not isinstance(call.state, Runs):
                self.fail(call, why)

    def forget(self, call: Call) -> None:
        """Nobody will add this call, if it isn't in the plan."""
        with self.lock:
            if call.number < 0:
                self.fail(call, Interrupted("its call was interrupted"))

    def fail(self, call: Call, why: Error) -> None:
        """A call ends without an end of its function."""
        with self.lock:
            if isinstance(call.state, Settled):
                return
            self.settle(call, Settled(is_final=isinstance(why, Canceled)))
        call.future.set_exception(type(why)(*why.args))

    def settle(self, call: Call, state: Settled) -> None:
        self.unknown.discard(call.number)
        call.state = state
