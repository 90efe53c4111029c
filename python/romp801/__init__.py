"""romp801 for Python 3.9 and up, with the standard library alone.

For programs that use a store: `client` has stores, transactions and programs run by name, `records` says what lies
where. Under these, `request` makes jobs of what is asked, `ledger` keeps what came of it over kills in the words of
`answers`, `follower` has what a store holds, and `log` is a file of records.

For tools: `format` reads a store's bytes, `program` finds and calls the program, `files` reads, locks and replaces
files so that a kill leaves the one or the other, `progress` keeps what a list of transactions has come to, `job`,
`report` and `prints` have these texts as objects, and `tool` is how a script begins and ends. The forms are those of
docs/FORMATS.md; what a store in use asks for is in docs/OPERATION.md, and docs/GUIDE.md, "From Python", is the way in.
"""
from romp801.client import Conflict, FileStore, TooLate, Transaction, connect
from romp801.errors import Failure, NO, FAILED, WRONG_USE
from romp801.format import Fault, Store
from romp801.records import Records

__all__ = [
    "Conflict",
    "Failure",
    "Fault",
    "FileStore",
    "Records",
    "Store",
    "TooLate",
    "Transaction",
    "connect",
    "NO",
    "FAILED",
    "WRONG_USE",
]
