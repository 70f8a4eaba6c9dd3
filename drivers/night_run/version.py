"""The version of the driver: that of the repository, or of what ./install put."""

import os

# Of a folder of drivers that was copied alone.
UNKNOWN = "unknown"


def version() -> str:
    """Returns what the file VERSION says, which stands beside the folder of the drivers."""
    drivers = os.path.dirname(os.path.dirname(os.path.realpath(__file__)))
    try:
        with open(f"{os.path.dirname(drivers)}/VERSION", encoding="utf-8") as file:
            return file.read().strip()
    except OSError:
        return UNKNOWN
