"""Tries many wrong bodies of a crate at once, for ./strength. A function is proved by its own body and by the contracts of those that
it calls, so bodies of several functions may be wrong in one copy: each is refused, or not, as if it stood there alone.

together.py put CRATE PUT EDIT..    changes a copy of a crate by as many of the edits as fit, at most one in each function, prints them and
                                    writes them to the file PUT; one that changes more than the bodies of functions isn't put
together.py judge CRATE PUT LOG     prints those of them that the prover refused, by what `rt ci` said of the copy, which `rt fmt` had laid out
together.py limit CRATE PUT LOG     prints those that it refused by one of its limits alone

An edit is refused where rt names a place in a function that it bends at which a clause isn't proved, an answer of that function's
proof that doesn't prove its goal, or a measure that a call of itself lacks. Not where a function that is called isn't proved either, or
where a proof names what isn't there: such an edit has to be tried alone."""

import json
import re
import sys
from pathlib import Path

HEAD = re.compile(r'(\s*)(?:pub(?:\(\w+\))? )?(?:const )?(?:unsafe )?(?:extern "C" )?fn (\w+)')


def functions(text):
    """The lines of a file of the layout of `rt fmt`, and of each function with a body: its `impl`, its name, the first line of its
    head, the first of its body, and that of the brace behind it."""
    lines = text.split("\n")
    found, owner, at = [], "", 0
    while at < len(lines):
        if lines[at].startswith("impl"):
            owner = lines[at]
        elif lines[at] == "}":
            owner = ""
        head = HEAD.match(lines[at])
        if head:
            indent, name = head.groups()
            first = at
            while lines[first - 1].lstrip().startswith(("#[", "///")):
                first -= 1
            # (the brace ends a head without clauses, and else it stands alone; where there is none the function has no body)
            start = at
            while lines[at] != indent + "{":
                last = at == start or lines[at].startswith(indent + ")")
                if lines[at] in ("", indent + "{}") or last and lines[at].endswith(("{", ";", "}")):
                    break
                at += 1
            if lines[at].endswith("{"):
                body = at + 1
                at = lines.index(indent + "}", body)
                found.append((owner, name, first, body, at))
        at += 1
    return lines, found


def changed(crate, edit):
    """The file that an edit changes, and the bodies of its functions that it makes others, by their places among the file's
    functions; none where it changes more than that, or doesn't fit."""
    file, old, texts = None, None, {}
    for line in Path(edit).read_text(encoding="utf-8").splitlines():
        if line.startswith("file: "):
            file = line[6:]
            if file not in texts:
                texts[file] = (crate / file).read_text(encoding="utf-8")
        elif line.startswith("old: "):
            old = line[5:]
        elif line.startswith("new:"):
            if texts[file].count(old) != 1:
                return file, {}
            texts[file] = texts[file].replace(old, line[4:].removeprefix(" "))
    if len(texts) != 1 or not file.startswith("src/"):
        return file, {}
    try:
        lines, before = functions((crate / file).read_text(encoding="utf-8"))
        others, after = functions(texts[file])
    except (IndexError, ValueError):
        return file, {}
    if without_bodies(lines, before) != without_bodies(others, after):
        return file, {}
    bodies = {}
    for place, (mine, other) in enumerate(zip(before, after)):
        if lines[mine[3] : mine[4]] != others[other[3] : other[4]]:
            bodies[place] = others[other[3] : other[4]]
    return file, bodies


def without_bodies(lines, found):
    left, at = [], 0
    for *_, body, end in found:
        left += [*lines[at:body], "body"]
        at = end
    return left + lines[at:]


def put(crate, note, edits):
    files, taken = {}, {}
    for edit in edits:
        file, bodies = changed(crate, edit)
        if bodies and not bodies.keys() & files.get(file, {}).keys():
            files.setdefault(file, {}).update(bodies)
            taken[edit] = (file, sorted(bodies))
            print(edit)
    for file, bodies in files.items():
        lines, found = functions((crate / file).read_text(encoding="utf-8"))
        for place in sorted(bodies, reverse=True):
            *_, body, end = found[place]
            lines[body:end] = bodies[place]
        (crate / file).write_text("\n".join(lines), encoding="utf-8")
    Path(note).write_text(json.dumps(taken), encoding="utf-8")


def judge(crate, note, log):
    """The edits that are refused, and those that are by a limit alone."""
    said = Path(log).read_text(encoding="utf-8", errors="replace")
    if f"rt: {crate.name} NOT PROVED\n" not in said:
        return [], []
    unproved = re.findall(r"^note: (src/\S+):(\d+):\d+: it is not proved (?!.* gave up at )", said, re.MULTILINE)
    given_up = re.findall(r"^note: (src/\S+):(\d+):\d+: it is not proved .* gave up at ", said, re.MULTILINE)
    answers = re.findall(r"^\./proofs/(\S+)/\w+\.antt:\d+:\d+: error: `.*`: (?!.* has no )", said, re.MULTILINE)
    answers += re.findall(r"^fn \S+: no proof: expected a measure in \./proofs/(\S+)/\w+\.antt", said, re.MULTILINE)
    taken = json.loads(Path(note).read_text(encoding="utf-8"))
    bent = {}
    for edit, (file, places) in taken.items():
        found = functions((crate / file).read_text(encoding="utf-8"))[1]
        bent[edit] = [(file, *found[place]) for place in places]

    def is_proof_of(path, function):
        _file, owner, name, *_ = function
        *above, last = path.replace("+", "").split("/")
        return last == name and (not owner or bool(above) and re.search(rf"\b{above[-1]}\b", owner))

    def has_one_of(its, lines):
        return any(file == f and first < int(line) <= end + 1 for f, _o, _n, first, _b, end in its for file, line in lines)

    refused, by_limit = [], []
    for edit, its in bent.items():
        proofs = [path for path in answers if any(is_proof_of(path, function) for function in its)]
        # (a name that two changed functions share says nothing)
        alone = [path for path in proofs if sum(any(is_proof_of(path, f) for f in fs) for fs in bent.values()) == 1]
        if alone or has_one_of(its, unproved):
            refused.append(edit)
        elif has_one_of(its, given_up):
            by_limit.append(edit)
    return refused, by_limit


if __name__ == "__main__":
    step, folder, *rest = sys.argv[1:]
    if step == "put":
        put(Path(folder), rest[0], rest[1:])
    else:
        for edit in judge(Path(folder), *rest)[step == "limit"]:
            print(edit)
