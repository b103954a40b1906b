#!/usr/bin/env python3
"""Writes crates/definitions/proofs/Opened.antt: one name that opens every definition of specs/, for closed examples by computation."""
import re, pathlib, textwrap
specs = pathlib.Path(__file__).resolve().parent.parent / "crates/definitions/specs"
modules = [l.split()[2] for l in (specs / "Lib.antt").read_text().splitlines() if l.startswith("pub mod")]
out = ["-- One name for each file of specs/ that opens its definitions, and one that opens all: for closed examples, which compute.",
       "-- Written by tools/opened.py."]
body, groups = [], []


def unfolding(names):
    """The line that opens the definitions, broken where it would be too long."""
    return textwrap.wrap("unfolding " + " ".join(names), 180, subsequent_indent="    ", break_on_hyphens=False)


for m in modules:
    names = re.findall(r"^ *unfoldable pub (\S+) :", (specs / f"{m}.antt").read_text(), re.M)
    if not names:
        continue
    out.append(f"use Rattle.definitions.specs.{m} as {m}")
    group = "open_" + re.sub(r"(?<=[a-z0-9])(?=[A-Z])", "_", m).lower()
    groups.append(group)
    body += ["", f"unfoldable pub {group} : Unit {{0}}", *unfolding(f"{m}.{n}" for n in names), f"{group} = tt"]
body += ["", "unfoldable pub opened : Unit {0}", *unfolding(groups), "opened = tt"]
(specs.parent / "proofs/Opened.antt").write_text("\n".join(out + body) + "\n")
