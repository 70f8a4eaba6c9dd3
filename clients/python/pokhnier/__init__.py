"""Groups of functions that survive a crash. The program `night` decides and records.

    import pokhnier

    with pokhnier.open("night.store") as store:
        with store.group("disks", limit=4) as disks:
            sizes = [disks.run(disk, copy, disk) for disk in ("sda", "sdb", "sdc")]
        print(sum(size.result() for size in sizes))

If this program is killed, start it again. A function that had returned isn't called again, and its
result is there. One that was running is called again. Nothing is reported before it is durable: a
function is called once its beginning is recorded, and a result is there once the end is.
"""

from .calls import Retries
from .current import Try, current
from .errors import (
    Abandoned,
    Canceled,
    Error,
    Failed,
    Full,
    Interrupted,
    InUse,
    Lost,
    Refused,
)
from .groups import Group
from .stores import Store, open  # noqa: A004
from .tasks import Task

__all__ = ["Abandoned", "Canceled", "Error", "Failed", "Full", "Group", "InUse", "Interrupted",
           "Lost", "Refused", "Retries", "Store", "Task", "Try", "current", "open"]
