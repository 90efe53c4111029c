#!/usr/bin/env python3
"""Tries each long piece of a crate's proofs as one call of grind, and keeps those that the check takes and that cost little.

usage: bench/shorten.py CRATE_FOLDER [PART OF A FILE'S PATH..]

A piece is an equation of three lines or more, all equations of a declaration, or a field of a record. In its place comes a call of
grind with the lemmas that it names, its recursive calls, and what it applies of its arguments. What the check refuses is put back,
and so is what costs more steps than its lines are worth; then what stands inside it is tried, as long as there is enough of that.
`rt tidy` drops the imports that nothing uses any more. Nothing else may be changed in the crate meanwhile.
"""
import collections
import glob
import json
import os
import re
import subprocess
import sys

NAME = r"[^\s(){}\[\];,.:@\"]+"
SIGNATURE = re.compile(r"^(\s*)(?:pub )?(" + NAME + r") :(?:\s|$)")
DEFINED = re.compile(r"^(\s*)(?:(?:abbrev|unfoldable) )?(?:pub )?(" + NAME + r") :(?:\s|$)")
USE = re.compile(r"^\s*use (\S+?)\.\{(.*)\}\s*$")
WORD = re.compile(r"[^\s(){}\[\];,]+")
STD = "/opt/rattle/rattle"
SCOPE = {"arith": "use Rattle.std.proofs.Common.{arith}", "nat_tests": "use Rattle.std.proofs.lemmas.Bool.Decides.{nat_tests}"}
NO_LEMMA = set("arith nat_tests common_steps rules refl ap sym subst absurd cc tt inl inr has length map filter take drop find".split())
STEPS_A_LINE, FEW_STEPS, MOST_STEPS, FEW_LINES = 40_000, 120_000, 1_200_000, 8

Piece = collections.namedtuple("Piece", "name first last left right is_field")


def indent(line):
    return len(line) - len(line.lstrip(" "))


def end_of(lines, first, depth):
    """The line behind what is indented deeper than this from a line on; brackets may close at the same depth."""
    last = first + 1
    while last < len(lines):
        rest = next((k for k in range(last, len(lines)) if lines[k].strip()), len(lines))
        if rest == len(lines) or (indent(lines[rest]) <= depth and lines[rest].strip()[0] not in "])}"):
            break
        last = rest + 1
    return last


def sign_at(text):
    """The place of the first equals sign outside of brackets."""
    depth = 0
    for place, char in enumerate(text):
        depth += (char in "({[") - (char in ")}]")
        if char == "=" and depth == 0 and text[place - 1 : place] in (" ", "\n") and text[place + 1 : place + 2] in ("", " ", "\n"):
            return place
    return None


def equations(lines, start, depth, name):
    """The equations of a declaration, one after another."""
    at = end_of(lines, start, depth)
    if at < len(lines) and lines[at].strip().startswith("unfolding"):
        at += 1
    while at < len(lines) and indent(lines[at]) == depth and re.match(re.escape(name) + r"(\s|$)", lines[at].strip()):
        last = end_of(lines, at, depth)
        text = "\n".join(lines[at:last])
        sign = sign_at(text)
        if sign is not None:
            yield Piece(name, at, last, text[:sign].rstrip(), text[sign + 1 :], False)
        at = last


def atoms(text, most=99):
    """The atoms that an application begins with."""
    found = []
    while len(found) < most:
        text = text.lstrip()
        depth = size = 0
        while size < len(text) and (depth or not text[size].isspace()) and not (depth == 0 and text[size] in ")}];,"):
            depth += (text[size] in "({[") - (text[size] in ")}]")
            size += 1
        word = re.sub(r"\s+", " ", text[:size])
        if not word or word in ("∙", "in", "=", "++", "+", "≡", "→", "λ", "where", "let", "|", "of", "else", "then"):
            break
        found.append(word)
        text = text[size:]
    return found


def whole(found, lines):
    """All equations of a declaration as one, unless it calls itself or unfolds a word."""
    calls = re.compile(r"(?<![^\s(\[{,])" + re.escape(found[0].name) + r"(?=\s)")
    if len(found) < 2 or any(calls.search(it.right) for it in found) or lines[found[0].first - 1].strip().startswith("unfolding"):
        return None
    names = []
    for place, column in enumerate(zip(*(atoms(it.left.strip()[len(it.name) :]) for it in found))):
        plain = [it for it in column if re.fullmatch(r"[a-z_][\w\-]*", it) and it not in ("true", "false", "zero", "_", "tt", "refl")]
        names.append(plain[0] if plain and plain[0] not in names else f"case_{place + 1}")
    left = " " * indent(found[0].left) + " ".join([found[0].name, *names])
    return Piece(found[0].name, found[0].first, found[-1].last, left, "\n".join(it.right for it in found), False)


def fields(lines, taken):
    """The fields of records over several lines."""
    for first, line in enumerate(lines):
        named = re.match(r"^(\s+)([a-z_][\w\-]*) =(\s|$)", line)
        if not named or first in taken:
            continue
        depth, last = 0, None
        for k in range(first, min(first + 60, len(lines))):
            for place in range(line.index("=") + 1 if k == first else 0, len(lines[k])):
                depth += (lines[k][place] in "({[") - (lines[k][place] in ")}]")
                if depth < 0 or (depth == 0 and lines[k][place] == ";"):
                    last = k if depth == 0 and place == len(lines[k].rstrip()) - 1 else -1
                    break
            if last is not None:
                break
        if last is not None and last >= 0:
            text = "\n".join(lines[first : last + 1])
            yield Piece(named[2], first, last + 1, text[: text.index("=")].rstrip(), text[text.index("=") + 1 :].rstrip().rstrip(";"), True)


def pieces(lines):
    """All pieces of three lines or more, an outer one before those inside it."""
    found, taken = [], set()
    for start, line in enumerate(lines):
        named = SIGNATURE.match(line)
        if not named or re.match(r"\s*(--|use |module|record |data |abbrev|unfoldable|let )", line):
            continue
        own = list(equations(lines, start, len(named[1]), named[2]))
        taken.update(it.first for it in own)
        one = whole(own, lines) if own else None
        found += [one] * (one is not None) + own
    found += fields(lines, taken)
    return sorted((it for it in found if it.last - it.first >= 3), key=lambda it: (it.first, -it.last))


def call_of(piece, lemmas):
    """The call of grind in the place of a piece."""
    words = dict.fromkeys(WORD.findall(piece.right))
    inside = {it[2] for it in map(SIGNATURE.match, piece.right.split("\n")) if it}
    named = [it for it in words if it in lemmas and it not in inside and it != piece.name and not it[0].isupper()][:14]
    bound = set(WORD.findall(piece.left)[1:])
    applied = []
    for it in re.finditer(r"(?<![^\s(\[{,])([a-z_][\w\-]*(?:\.[\w\-]+)*)(?=\s+[(\w])", piece.right):
        head = re.search(r"(^|[(=\[,;]|∙|(?<=\s)in|↦|\.)\s*$", piece.right[: it.start()])
        if head and it[1].split(".")[0] in bound and it[1] not in applied + named:
            applied.append(it[1])
    many = len(atoms(piece.left.strip()[len(piece.name) :]))
    again = r"(?<![^\s(\[{,])" + re.escape(piece.name) + r"(?=\s)"
    own = [] if piece.is_field else [" ".join([piece.name, *atoms(piece.right[it.end() :], many)]) for it in re.finditer(again, piece.right)]
    head = re.match(r"\s*(λ [^.()]*\.)\s", piece.right)
    facts = ", ".join(["arith", "nat_tests", *named, *applied[:6], *dict.fromkeys(own[:4])])
    return f"{piece.left} = {head[1] + ' ' if head else ''}grind ({facts})" + ";" * piece.is_field


def lemmas_of(folder):
    """The names of lemmas that a proof of the repository may cite: what proofs declare, and no word of specs/."""
    found, words = set(), set()
    places = [f"{folder}/..", STD, f"{STD}/*"]
    for names, pattern, roots in [
        (found, SIGNATURE, [it for at in places for it in glob.glob(f"{at}/*/proofs")] + [f"{STD}/logic"]),
        (words, DEFINED, [it for at in places for it in glob.glob(f"{at}/*/specs")]),
    ]:
        for file in (it for root in roots for it in glob.glob(f"{root}/**/*.antt", recursive=True) if "Law" not in it or names is found):
            with open(file, encoding="utf-8", errors="replace") as it:
                names.update(named[2] for named in map(pattern.match, it) if named and len(named[1]) <= 2)
    return found - words - NO_LEMMA


def in_scope(lines, lemmas):
    """Of these names those that a file brings in from proofs and laws, or declares."""
    brought = [it for it in map(USE.match, lines) if it and (".proofs." in it[1] or "Laws" in it[1])]
    names = {name.strip() for it in brought for name in it[2].split(",")}
    return lemmas & (names | {it[2] for it in map(SIGNATURE.match, lines) if it and len(it[1]) <= 2})


def laid(text, calls):
    """The text with these calls in the place of their pieces, and where each came to stand."""
    lines, made, spans, at = text.split("\n"), [], [], 0
    for piece, call in calls:
        made += lines[at : piece.first]
        spans.append((len(made) + 1, len(made) + 1 + call.count("\n"), piece))
        made += call.split("\n")
        at = piece.last
    made += lines[at:]
    have = {it.strip() for line in made if USE.match(line) for it in USE.match(line)[2].split(",")}
    more = [SCOPE[it] for it in SCOPE if it not in have] if calls else []
    top = next((k for k, line in enumerate(made) if line.startswith("use ")), 0)
    return "\n".join(made[:top] + more + made[top:]), [(a + len(more), b + len(more), piece) for a, b, piece in spans]


def steps(folder):
    """The steps of each declaration, by its module, as the check noted them last."""
    found = {}
    for file in sorted(glob.glob(f"{folder}/out/incremental/antt-checked*/records/*.decls.oantt"), key=os.path.getmtime):
        with open(file, encoding="latin1") as it:
            text = it.read()
        counts = collections.Counter()
        for start in re.finditer(r'\[\{"aux":', text):
            try:
                for one in json.JSONDecoder().raw_decode(text, start.start())[0]:
                    counts[one["name"]] += one["steps"][0] if "steps" in one else 0
            except ValueError:
                continue
        found[os.path.basename(file)[:-12].replace("+", "")] = counts
    return found


def refused(said, folder, spans):
    """The pieces at which an error stands; or, where there is none, those in front of one."""
    at, before = set(), set()
    for it in re.finditer(r"(proofs/\S+?\.antt):(\d+)", said):
        earlier = [span for span in spans.get(f"{folder}/{it[1]}", []) if span[0] <= int(it[2])]
        if earlier:
            (at if int(it[2]) <= earlier[-1][1] else before).add((f"{folder}/{it[1]}", earlier[-1][2]))
    return at or before


def too_dear(folder, file, text, calls):
    """The pieces of a file whose declarations cost more than their lines are worth."""
    module = f"Rattle-{os.path.basename(folder)}-proofs.{os.path.relpath(file, folder + '/proofs')[:-5].replace('/', '.')}"
    told = steps(folder).get(module, {})
    named = [(k, it[2]) for k, it in enumerate(map(SIGNATURE.match, text.split("\n"))) if it and len(it[1]) <= 2]
    by_name = collections.defaultdict(list)
    for piece, _ in calls:
        by_name[next((name for k, name in reversed(named) if k <= piece.first), "")].append(piece)
    worth = lambda found: max(FEW_STEPS, min(MOST_STEPS, STEPS_A_LINE * sum(it.last - it.first - 1 for it in found)))
    return {it for name, found in by_name.items() if told.get(name, 0) > worth(found) for it in found}


def write(file, text):
    with open(file, encoding="utf-8") as it:
        if it.read() == text:
            return
    with open(file, "w", encoding="utf-8") as it:
        it.write(text)


def settle(folder, texts, chosen):
    """Keeps of the chosen calls what the check takes and what isn't too dear; returns how many lines went."""
    while True:
        spans = {}
        for file, text in texts.items():
            new, spans[file] = laid(text, chosen.get(file, []))
            write(file, new)
        done = subprocess.run(["rt", "check"], cwd=folder, capture_output=True, text=True)
        bad = refused(done.stdout + done.stderr, folder, spans) if done.returncode else set()
        print(f"  {sum(map(len, chosen.values()))} tried, {len(bad)} refused", flush=True)
        if done.returncode and not bad:
            chosen.clear()
        if not done.returncode:
            bad = {(file, it) for file, calls in chosen.items() for it in too_dear(folder, file, texts[file], calls)}
        for file in chosen:
            chosen[file] = [it for it in chosen[file] if (file, it[0]) not in bad]
        if not done.returncode or not chosen:
            for file, text in texts.items():
                write(file, laid(text, chosen.get(file, []))[0])
            return sum(it.last - it.first - 1 - call.count("\n") for calls in chosen.values() for it, call in calls)


def main():
    if len(sys.argv) < 2 or sys.argv[1] in ("-h", "--help"):
        print(__doc__.strip())
        return 2
    folder = os.path.abspath(sys.argv[1])
    files = [it for it in glob.glob(f"{folder}/proofs/**/*.antt", recursive=True) if os.path.basename(it) not in ("Lib.antt", "Common.antt")]
    files = [it for it in files if not sys.argv[2:] or any(part in it for part in sys.argv[2:])]
    lemmas, tried, gone = lemmas_of(folder), set(), 0
    while True:
        texts, chosen = {}, {}
        for file in files:
            with open(file, encoding="utf-8") as it:
                texts[file] = it.read()
            calls = chosen.setdefault(file, [])
            lines = texts[file].split("\n")
            near = in_scope(lines, lemmas)
            for piece in pieces(lines):
                key = (file, piece.left, piece.right)
                if key not in tried and not (calls and piece.first < calls[-1][0].last):
                    calls.append((piece, call_of(piece, near)))
                    tried.add(key)
        if sum(it.last - it.first - 1 for calls in chosen.values() for it, _ in calls) < FEW_LINES:
            print(f"{os.path.basename(folder)}: {gone} lines less")
            return 0
        gone += settle(folder, texts, chosen)


if __name__ == "__main__":
    sys.exit(main())
