"""The thread that talks with `night drive`: one round after another."""

from __future__ import annotations

import threading
import time

from .board import Board
from .calls import Call, GroupPlan
from .drive import Drive
from .errors import Error, Interrupted, Lost
from .orders import Durable, Over
from .outcomes import Outcome
from .rounds import Round
from .wishes import AddCall, AddGroup, AskError, CutGroup, End, Wish

# Seconds between two rounds, at most, and between two looks at what nobody reports: a dead program,
# or a loop that is closed.
IDLE, TICK = 3600.0, 1.0


class Pump:
    """Gathers what happens while a round is answered, and makes the next round of it."""

    def __init__(self, drive: Drive, board: Board) -> None:
        self.drive, self.board = drive, board
        self.work = threading.Condition(board.lock)
        self.wishes: list[Wish] = []
        self.made: Round | None = None  # the one that is being answered
        self.ended: Error | None = None
        self.left: Error | None = None  # why nothing is asked in this process
        self.ends = self.is_over = False
        self.thread = threading.Thread(target=self.run, daemon=True, name="pokhnier")

    # What other threads call. (They take the lock itself, since Ctrl-C may come between the end of
    # the method that takes it for a condition and the block that gives it back.)

    def add(self, wish: Wish) -> None:
        """The next round has this."""
        with self.board.lock:
            if self.ended is None:
                self.wishes.append(wish)
                self.work.notify()
                return
        self.refuse(wish)
        self.board.open_gates()

    def report(self, call: Call, outcome: Outcome, seen: BaseException | None) -> None:
        """The function of a call has ended."""
        self.add(End(call, outcome, seen))

    def interrupt(self, why: Error) -> None:
        """This run ends: functions have to stop, and nothing begins any more."""
        with self.board.lock:
            if self.board.cut:
                return
            self.board.cut = why
            groups = [it for it in self.board.plan.groups if it]
        for group in groups:
            self.cut_group(group, why)

    def cut_group(self, group: GroupPlan, why: Error) -> None:
        """For this run, the functions of a group have to stop, and none begins."""
        self.board.cut_group(group, why)
        self.add(CutGroup(group))

    def end(self) -> None:
        """Ends the thread once all that waits is answered."""
        with self.board.lock:
            self.ends = True
            self.work.notify()
        self.thread.join()

    def leave(self, why: Error) -> None:
        """This process was forked from the one that has the thread. (The lock may be held by a
        thread that isn't here.)"""
        self.board.lock = threading.RLock()
        self.work = threading.Condition(self.board.lock)
        self.ended = self.board.cut = self.left = why

    # The thread

    def run(self) -> None:
        try:
            while (wishes := self.next()) is not None:
                self.turn(wishes)
            self.stop(Interrupted("this run has ended"))
        except Error as error:
            self.stop(error)
        except OSError as error:
            self.stop(Lost(f"the results can't be written: {error}"))
        except BaseException as error:
            # (It can't happen. If it does, nobody may wait for ever.)
            self.stop(Lost(f"{type(error).__name__}: {error}"))
            raise

    def next(self) -> list[Wish] | None:
        """What the next round has, once there is something. `None` at the end."""
        with self.work:
            began = time.monotonic()
            while not self.wishes and not self.ends:
                left = self.seconds(time.monotonic() - began)
                if left <= 0 or self.board.unknown or self.drive.is_dead():
                    break
                self.work.wait(min(left, TICK))
                self.wishes += self.board.lost()
            if self.ends and not self.wishes or self.is_over:
                return None
            wishes, self.wishes = self.wishes, []
            return wishes

    def seconds(self, waited: float) -> float:
        """How long nothing has to be asked, after this many seconds. (A moment isn't waited for by
        the clock that measures these: that one stands still while the machine sleeps.)"""
        left, later = IDLE - waited, self.board.later
        return left if later is None else min(left, later - time.time())

    def turn(self, wishes: list[Wish]) -> None:
        """Makes a round, and does what answers it."""
        made, rest = self.board.round(wishes)
        self.made = made
        with self.work:
            self.wishes[:0] = rest
        self.board.results.flush()
        orders = self.drive.ask(made.whole())
        if Durable() not in orders:
            raise Lost(f"an answer isn't durable: {orders}")
        self.board.take(made, orders)
        self.is_over = Over() in orders
        for answer in made.finishes:
            answer.set_result(self.is_over)
        self.made = None
        self.board.open_gates()
        with self.work:
            self.wishes += self.board.questions
            self.board.questions.clear()

    def stop(self, why: Error) -> None:
        """The run has ended for this reason."""
        with self.work:
            self.ended = why
            wishes = [*(self.made.unanswered() if self.made else []), *self.wishes]
            self.wishes = []
        self.board.end(why)
        for wish in wishes:
            self.refuse(wish)
        self.board.open_gates()

    def refuse(self, wish: Wish) -> None:
        """Nothing is recorded any more."""
        assert self.ended
        match wish:
            case AddCall(call) | End(call, _, _) | AskError(call):
                self.board.fail(call, self.ended)
            case AddGroup() | CutGroup():
                pass
            case _ if not wish.answer.done():
                wish.answer.set_exception(self.ended)
