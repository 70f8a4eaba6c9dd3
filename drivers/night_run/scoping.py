"""The scopes of what is left to do, as an opening makes them: one for all groups together, and one
for each group with something left, or with a command that runs on.
"""

from __future__ import annotations

from . import Fault
from .capacity import StoreFull
from .course import Course
from .executor import Executor
from .keeping import Keeper
from .night import Session
from .opening import Maker
from .rounds import round_of
from .settings import OF_ALL
from .standing import groups_left
from .state import State
from .telling import note
from .tonight import Tonight


class Scopes:
    """The scopes of a driver's night, in a store that was just opened."""

    def __init__(self, course: Course, executor: Executor, keeper: Keeper, session: Session,
                 state: State) -> None:
        self.course, self.executor, self.keeper, self.state = course, executor, keeper, state
        self.maker = Maker(session, course.book, course.jobs, state)

    def make(self) -> bool:
        """Makes those that are needed; whether any is."""
        course, book = self.course, self.course.book
        wanted = groups_left(course.planner.standings(course.facts))
        wanted |= course.reopened & course.jobs.members.keys()
        # (something is wanted of this night, and not of the next one: so there is one)
        is_wanted = book.top is None and book.tonight != Tonight()
        if not (wanted or course.begins_night or self.homeless() or is_wanted):
            return False
        old = book.top
        self.maker.top()
        moved = old is not None and old is not book.top and not self.maker.is_done(old)
        if moved:
            self.tell(OF_ALL)
        for group in course.jobs.members:
            self.make_one(group, group in wanted, moved)
        self.make_for_running({it for it in wanted if it in course.book.gone})
        self.send()
        self.note_night()
        return True

    def send(self) -> None:
        try:
            self.maker.send()
        except StoreFull:
            if self.course.capacity.is_fruitless:
                raise Fault(f"{self.course.files.shown}: the file has more groups than a store has"
                            " scopes for") from None
            raise

    def make_one(self, group: str, is_wanted: bool, moved: bool) -> None:
        """Makes the scope of a group, if it needs one. It makes another one if the deadline has
        changed in the file."""
        course = self.course
        scope = course.book.scopes.get(group)
        is_gone = is_wanted and scope is None and group not in course.book.gone
        is_other = is_wanted and scope is not None and group not in course.facts.done and (
            moved or self.maker.is_other(scope, group))
        if is_gone or is_other or group in course.reopened:
            if scope and is_other and group not in course.reopened \
                    and self.maker.is_other(scope, group):
                self.tell(group)
            self.maker.group(group)
            course.facts.done.pop(group, None)

    def tell(self, group: str) -> None:
        """Reports that the file has another deadline now, for a group or for all together."""
        note(f"{group}: its deadline is now: {self.course.jobs.groups[group].deadline or 'none'}")

    def make_for_running(self, wanted: set[str]) -> None:
        """Makes scopes for commands that run on, or clean up, while theirs was done, and went with
        a renewal."""
        for group in self.homeless() | wanted:
            cause = self.course.facts.done.get(group)
            self.maker.group(group)
            if cause is not None:
                self.maker.lines.append(f"cancel {self.course.book.scopes[group].name} {cause}")

    def homeless(self) -> set[str]:
        """The groups that have no scope, and commands whose ends are to be recorded."""
        return self.executor.groups() - set(self.course.book.scopes)

    def note_night(self) -> None:
        """Notes how this night began, once its scopes are there. Of one that an earlier driver
        began the store says that, unless it was renewed since."""
        course, past = self.course, self.course.past
        night = course.book.night
        tops = self.state.tops(night, night)
        is_first = not tops and not past.round
        is_renewed = bool(past.round) and past.night == night
        first = tops[0] if tops else course.book.top
        if first and (course.begins_night or is_first
                      or not is_renewed and not self.keeper.knows(night)):
            self.keeper.begin(night, round_of(first.name).number, course.begins_night)
