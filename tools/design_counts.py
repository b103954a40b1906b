#!/usr/bin/env python3
"""Counts, in the code of a checkout (here, or the folder given), the places that docs/DESIGN-PASS.md speaks of, point by point.
With --list each place is printed with its file and line."""
import collections, glob, pathlib, re, sys

top = pathlib.Path(next((a for a in sys.argv[1:] if not a.startswith("-")), "."))
listed = "--list" in sys.argv
files = sorted(glob.glob(str(top / "crates/*/src/**/*.rt"), recursive=True))


def code(path):
    """The text without ghost uses, uses and comments, line by line."""
    return [re.sub(r"//.*", "", l) if not l.startswith(("ghost use", "use ")) else "" for l in pathlib.Path(path).read_text().splitlines()]


def functions(lines):
    """Each function: its first line, its head up to the body, and its body."""
    for i, l in enumerate(lines):
        m = re.match(r"( *)(?:pub )?(?:const )?fn (\w+)", l)
        if not m:
            continue
        end = next((j for j in range(i, len(lines)) if lines[j].startswith(m.group(1) + "}") or (j == i and l.rstrip().endswith("}"))), len(lines) - 1)
        body = next((j for j in range(i, end) if re.match(m.group(1) + r"\{", lines[j]) or lines[j].rstrip().endswith("{") and not re.search(r"requires|ensures", lines[j])), i)
        yield i, m.group(2), "\n".join(lines[i:body + 1]), "\n".join(lines[body + 1:end])


places = collections.defaultdict(list)
twins = collections.defaultdict(list)
facts = collections.defaultdict(set)
for path in files:
    lines = code(path)
    name = str(pathlib.Path(path).relative_to(top))
    text = "\n".join(lines)

    def note(point, line, what):
        places[point].append(f"{name}:{line + 1}: {what}")

    for i, l in enumerate(lines):
        if re.search(r"\b(Read|Counted|Added|Shift|Amount)::|\b\w+Answer::|::Refused\b", l):
            note("1 own enum of the shape of Option or Result: uses", i, l.strip())
        if re.match(r" *(pub )?(found|ok|sought|fits|moved|refusal|known): (bool|u8),", l):
            note("1 a flag, or a number that is 0 for none, beside a value: fields", i, l.strip())
        if re.search(r"^pub const [A-Z_]+: u8 = \d+;", l) and "LIMIT" not in l:
            note("1 a number for a refusal: constants", i, l.strip())
        if re.match(r" *(pub )?(kind|code): u8,", l):
            note("1 a number for a kind: fields", i, l.strip())
        if re.search(r"fn (same\w*|equal\w*|compare\w*|is_same|is_less|before|copy\w*|text_before|tag_before|uri_before|index|number_index|wide|narrow|low|high|mark|short_number|least|at_most|smaller|bits|to_signed)\b", l):
            note("4 equality, order, copying or conversion by hand: functions", i, l.strip())
        if re.search(r"match \w*(step|act|call)\w*", l):
            note("7 a switch on which step to run", i, l.strip())
    for i, fn, head, body in functions(lines):
        params = re.search(r"\((.*?)\)\s*(->|\{|\n|$)", head, re.S)
        many = len([p for p in re.sub(r"\[[^\]]*\]|<[^>]*>", "", params.group(1)).split(",") if p.strip()]) if params else 0
        if many > 6:
            note("5 more than six parameters: functions", i, f"{fn}: {many}")
        if re.search(r"\w+: &(mut )?\[\w+\],\s*(n|m|count|size|len|height): \w+", head):
            note("6 a buffer with a length beside it: functions", i, fn)
        for r in re.findall(r"requires(?: \w+)? \{ (.*?) \}\n", head):
            facts[r].add((name, i, fn))
        for m in re.finditer(r"\bwhile (.*)\{", body):
            inside = body[m.end():]
            counted = [v for v in re.findall(r"\b(\w+)\b", m.group(1)) if re.search(r"\b" + v + r" [+-]= (1|2|4|8|16|32|[A-Z_]+);", inside)]
            note("3 while loops", i + head.count("\n") + body[:m.start()].count("\n") + 1, fn)
            if counted:
                note("3 while loops that count an index by hand", i + head.count("\n") + body[:m.start()].count("\n") + 1, fn)
        names = {}
        shape = re.sub(r"\b\d\w*\b|\b[A-Z][A-Z_]+\b", "#", re.sub(r"\s+", " ", body))
        shape = re.sub(r"[A-Za-z_]\w*", lambda w: w.group(0) if w.group(0) in ("if", "else", "while", "for", "in", "match", "let", "mut", "return", "as", "true", "false", "self") else names.setdefault(w.group(0), f"v{len(names)}"), shape)
        if len(shape) > 60:
            twins[shape].append(f"{name}:{i + 1}: {fn}")
for group in twins.values():
    if len(group) > 1:
        places["2 functions of one shape, up to names and numbers"] += group
for fact, where in facts.items():
    if len(where) > 2:
        places["5 a fact in the requires of three functions or more: clauses"] += [f"{n}:{i + 1}: {fn}: {fact}" for n, i, fn in sorted(where)]
for point in sorted(places):
    print(f"{len(places[point]):5}  {point}")
    if listed:
        print("".join(f"         {p}\n" for p in places[point]), end="")
