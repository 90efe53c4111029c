"""What the program's statuses and the kinds of a job's faults mean, in words (docs/FORMATS.md, "Statuses" and
"Job")."""
from __future__ import annotations

STATUSES = {
    1: "the words are mistaken",
    2: "the bytes are no store, or a damaged one",
    3: "the job is mistaken",
    4: "standard input failed",
    5: "a call on the store failed, or another process has it",
    6: "standard output failed",
    7: "there was no memory",
    8: "the text is too large",
    9: "the file has bytes already",
    10: "the store has no such range",
    11: "the bundle is mistaken",
    12: "the store doesn't keep that number",
    13: "the ship text can't be followed",
    14: "no commit line is that activation's",
    15: "the report isn't that of its programs one after another",
}
KINDS = {
    1: "a character that begins no word or number, or a word of more than 31 bytes",
    2: "there is no such instruction or directive",
    3: "operands that this instruction doesn't take",
    4: "a number that is none, or is too large",
    5: "a label or .entry that stands already",
    6: "a label that nothing has",
    7: "a value or a distance out of range",
    8: "the program passes 16,384 bytes here",
    9: "a window: registers are 1 to 15, each once, segments 1 to 3,839",
    10: "not a line that may stand here, a line feed is missing at the end, or the text ends too early",
    11: "a number out of range, or too many programs, sources or events",
    12: "no program has this name",
    13: "a program of this name stands already",
    14: "a turn of an activation that no begin above makes",
    15: "an exported label that this source lacks",
    16: "a label that is exported already",
}


def status(number: int) -> str:
    """A status in words; a negative one is the signal that ended the program."""
    if number < 0:
        return f"signal {-number} ended the program"
    return STATUSES.get(number, "no status of the program")


def kind(number: int) -> str:
    """A kind of a job's fault in words."""
    return KINDS.get(number, "a kind that isn't known here")
