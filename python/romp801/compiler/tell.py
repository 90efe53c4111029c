"""What is told of a source beside its programs: its records as tools/show reads them, and a file of C with which it
runs elsewhere."""
from __future__ import annotations

from typing import Iterator

from romp801.compiler import kinds
from romp801.compiler.code import Code
from romp801.compiler.faults import Refused
from romp801.compiler.kinds import Array, Function, Int, Pointer, Record, Type
from romp801.compiler.unit import Known, Shared, Unit, functions_of

HOST = """/* Made by tools/compile --host: runs programs in C on another machine, on lines of standard input as
   tools/work reads them. Compile it together with their files. */
#include <setjmp.h>
#include <stdlib.h>
#include <string.h>

/* (without stdio.h, since a function may be called remove) */
int printf(const char *, ...), sscanf(const char *, const char *, ...), puts(const char *), getchar(void);

@RECORDS@
@FUNCTIONS@
static struct { void *at; size_t size; void *kept; } records[] = {@LIST@{0, 0, 0}};
static jmp_buf over;
static unsigned char out[4096];
static unsigned count;

_Noreturn void commit(void) { longjmp(over, 1); }
_Noreturn void give_up(void) { longjmp(over, 2); }
void print_byte(unsigned byte) { if (count < sizeof out) out[count++] = (unsigned char)byte; }

static void run(const char *name, const unsigned *v)
{
    (void)v;
@CALLS@    printf("there is no function %s\\n", name);
    exit(2);
}

static int get(char *line, int size)
{
    int at = 0, byte;
    while ((byte = getchar()) >= 0 && byte != '\\n' && at < size - 1)
        line[at++] = (char)byte;
    line[at] = 0;
    return byte >= 0 || at;
}

int main(void)
{
    static char line[1000];
    unsigned number = 0, commits = 0, at;
    while (get(line, sizeof line)) {
        char name[100];
        unsigned v[4] = {0, 0, 0, 0};
        number++;
        line[strcspn(line, ";")] = 0;
        if (sscanf(line, "%99s %u %u %u %u", name, v, v + 1, v + 2, v + 3) < 1)
            continue;
        for (at = 0; records[at].size; at++) {
            if (!records[at].kept)
                records[at].kept = malloc(records[at].size);
            memcpy(records[at].kept, records[at].at, records[at].size);
        }
        count = 0;
        switch (setjmp(over)) {
        case 0:
            run(name, v);
            /* falls through */
        case 1:
            printf("%u %s: commit %u out ", number, line, ++commits);
            for (at = 0; at < count; at++)
                printf("%02x", out[at]);
            puts(count ? "" : "-");
            break;
        default:
            for (at = 0; records[at].size; at++)
                memcpy(records[at].at, records[at].kept, records[at].size);
            printf("%u %s: check 8\\n", number, line);
        }
    }
    return 0;
}
"""


UNUSED = "unused"
"""With what the name of a member begins that is left out of a description."""


def fields_of(its: Type, name: str, at: int) -> Iterator[tuple[int, str, str, int]]:
    """The fields of a type: where each is, its name, its kind and its bytes."""
    if isinstance(its, Record) and its.word == "struct":
        for it in its.fields:
            inner = "_".join(filter(None, (name, it.name)))
            yield from fields_of(it.type, inner, at + it.offset)
    elif isinstance(its, Array) and isinstance(its.of, (Array, Record)) and its.count is not None:
        for index in range(its.count):
            yield from fields_of(its.of, f"{name}_{index}", at + index * its.of.size)
    elif isinstance(its, Array) and isinstance(its.of, Int):
        text = str(its.of) == "char"
        yield at, name, f"text {its.size}" if text else f"{_kind(its.of)} {its.count}", its.size
    elif isinstance(its, (Int, Pointer)):
        yield at, name or "value", _kind(its), its.size
    else:
        yield at, name or "value", f"u1 {its.size}", its.size


def _kind(its: Type) -> str:
    return f"{'s' if isinstance(its, Int) and its.signed else 'u'}{its.size}"


def records(shared: Shared) -> Iterator[str]:
    """The lines of a description of all records."""
    for name, it in shared.records.items():
        of, count = it.type, 1
        while isinstance(of, Array) and isinstance(of.of, (Record, Array, Int, Pointer)) and str(of.of) != "char":
            of, count = of.of, count * (of.count or 1)  # type: ignore[union-attr]
        yield f"records {name} segment {it.segment} from {it.offset} size {of.size} count {count}"
        at = 0
        for there, field, kind, size in fields_of(of, "", 0):
            if field.startswith(UNUSED):
                continue
            if there > at:
                yield f"skip {there - at}"
            yield f"{field} {kind}"
            at = there + size
        if of.size > at:
            yield f"skip {of.size - at}"


def host(units: list[Unit], shared: Shared, functions: list[str]) -> str:
    """A file of C that has the records and the calls, and runs these functions."""
    declared, calls = [], []
    for name in functions:
        code = next((it for unit in units for it in unit.things if isinstance(it, Code) and it.name == name), None)
        if code is None or not isinstance(code.type, Function):
            raise Refused(None, f"no function {name} is defined; those that are: {functions_of(units)}")
        given = code.type.parameters or ()
        declared.append(f"{_written(code.type.result)} {name}({', '.join(map(_written, given)) or 'void'});")
        values = ", ".join(f"({_written(its)})v[{at}]" for at, its in enumerate(given))
        calls.append(f'    if (!strcmp(name, "{name}")) {{ {name}({values}); return; }}\n')
    data = [f"_Alignas(16) unsigned char {name}[{_room(it)}];" for name, it in shared.records.items()]
    listed = [f"{{{name}, sizeof {name}, 0}}, " for name in shared.records]
    found = HOST.replace("@RECORDS@", "\n".join(data)).replace("@FUNCTIONS@", "\n".join(declared))
    return found.replace("@LIST@", "".join(listed)).replace("@CALLS@", "".join(calls))


def _room(it: Known) -> int:
    """Bytes that a record has elsewhere, where an address may have eight."""
    return 2 * it.type.size


def _written(its: Type) -> str:
    """A type as a declaration of a function has it."""
    if isinstance(its, kinds.Void):
        return "void"
    if isinstance(its, Int):
        return its.name if "enum" not in its.name else "int" if its.signed else "unsigned"
    raise Refused(None, f"{its} is no type of a value that a begin has")
