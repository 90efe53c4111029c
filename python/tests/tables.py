"""The jobs and reports of examples/ and checks/, for tests over all of them."""
from __future__ import annotations

import pathlib
from typing import Iterator

TOP = pathlib.Path(__file__).resolve().parent.parent.parent


def read(path: pathlib.Path) -> str:
    """A file of the repository, as a job's text is read."""
    return path.read_text(encoding="latin-1")


def texts(table: str) -> Iterator[tuple[str, str]]:
    """The texts of a table of checks/, each with what is said of it behind "="; a line "~" takes the line feed in
    front of it away."""
    said, text = "", ""
    for line in read(TOP / "checks" / table).split("\n")[:-1]:
        if line.startswith("= "):
            if said:
                yield said, text
            said, text = line[2:], ""
        elif line == "~":
            text = text[:-1]
        elif not line.startswith("#"):
            text += f"{line}\n"
    yield said, text


def worked() -> Iterator[tuple[str, str, str]]:
    """The rows of checks/worked: a name, a job and its report."""
    for table in sorted((TOP / "checks/worked").iterdir()):
        programs, name, job, report, part = "", "", "", "", "programs"
        for line in [*read(table).split("\n")[:-1], "= "]:
            if line.startswith("= "):
                if name:
                    yield name, f"{job}end\n", report
                name, job, report, part = line[2:], programs, "", "events"
            elif line.startswith("@ frames "):
                job = line[2:] + job[job.index("\n") :]
            elif line == "-":
                part = "report"
            elif part == "report":
                report += f"{line}\n"
            elif part == "events":
                job += "" if line.startswith("@ ") else f"{line}\n"
            elif not line.startswith("#"):
                programs += f"{line}\n"


def linked() -> Iterator[str]:
    """The jobs of checks/linked."""
    text = ""
    for line in [*read(TOP / "checks/linked").split("\n")[:-1], "="]:
        if line in ("=", "-"):
            if text:
                yield text
            text = ""
        elif not line.startswith("#"):
            text += f"{line}\n"


def jobs() -> list[tuple[str, str]]:
    """Each job, with its name."""
    paths = [*sorted((TOP / "examples").glob("*.job")), TOP / "checks/ranges.job", TOP / "crates/romp801/stdin"]
    found = [(path.name, read(path)) for path in paths]
    found += [(name, job) for name, job, _ in worked()]
    return found + [("linked", job) for job in linked()]


def reports() -> list[tuple[str, str]]:
    """Each report, with its name."""
    paths = [*sorted((TOP / "examples").glob("*.report")), TOP / "crates/romp801/stdout"]
    return [(path.name, read(path)) for path in paths] + [(name, report) for name, _, report in worked()]
