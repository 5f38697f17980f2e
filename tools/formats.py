"""What docs/FORMATS.md says that the program prints, for trials and models that compare it with
what was printed.

Python's standard library only.
"""

import re
from pathlib import Path

PAGE = Path(__file__).resolve().parent.parent / "docs/FORMATS.md"


def usage_line():
    """The line for words that are no command, with its line feed."""
    found = re.search(r"^\| `(usage: [^`]+)` \|", PAGE.read_text(), re.MULTILINE)
    if not found:
        raise ValueError(f"{PAGE} has no usage line")
    return found[1].replace("\\|", "|") + "\n"
