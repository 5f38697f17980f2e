"""Which release of tz a tree of zone files was made from, and when that was published.

Python's standard library only.
"""

import gzip
import re
import zlib
from datetime import datetime, timezone
from pathlib import Path

MOMENT_FORM = "%Y-%m-%dT%H:%M:%SZ"

# Where Debian and others install the news of tz, of which each release has its own line.
DOCUMENTS = "doc/tzdata"
SYSTEM_SHARE = Path("/usr/share")
NEWS_FILES = ("changelog.gz", "NEWS.gz", "NEWS")

RELEASE = re.compile(
    r"^Release (\d{4}[a-z]+) - (\d{4}-\d\d-\d\d \d\d:\d\d:\d\d [+-]\d{4})$", re.MULTILINE
)


def version_in(source):
    """The version of a `tzdata.zi`, or None."""
    first = source.splitlines()[0] if source else ""
    found = re.fullmatch(r"# version (\S+)", first)
    return found[1] if found else None


def news_of(tree):
    """The text of each of the news that are installed, those that belong to the tree first."""
    for share in (tree.resolve().parent, SYSTEM_SHARE):
        for name in NEWS_FILES:
            path = share / DOCUMENTS / name
            try:
                data = path.read_bytes()
                if path.suffix == ".gz":
                    data = gzip.decompress(data)
                yield data.decode("utf-8", "replace")
            except (OSError, EOFError, zlib.error):
                continue


def release_moment(tree, version):
    """When a release of tz was published, as the text of a moment, or None where no news names it.

    Of a version with more after its letters, such as 2025b-1, only the release counts.
    """
    release = re.match(r"\d{4}[a-z]+", version or "")
    if not release:
        return None
    for text in news_of(tree):
        for name, moment in RELEASE.findall(text):
            if name == release[0]:
                published = datetime.strptime(moment, "%Y-%m-%d %H:%M:%S %z")
                return published.astimezone(timezone.utc).strftime(MOMENT_FORM)
    return None
