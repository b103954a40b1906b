#!/usr/bin/env python3
"""Writes docs/crates.svg from crates.txt: a row for each level, the crates that need nothing of each other side by side,
and an arrow from each crate to those that it needs directly (an arrow that follows from two others is left out)."""
import pathlib

root = pathlib.Path(__file__).resolve().parent.parent
deps = {}
for line in (root / "crates.txt").read_text().splitlines():
    line = line.split("#")[0].strip()
    if line:
        name, _, rest = line.partition(":")
        deps[name.split()[0]] = rest.split()
deps = {n: [d for d in ds if d in deps] for n, ds in deps.items()}


def reaches(n, seen):
    for d in deps[n]:
        if d not in seen:
            seen.add(d)
            reaches(d, seen)
    return seen


below = {n: reaches(n, set()) for n in deps}
direct = {n: [d for d in ds if not any(d in below[e] for e in ds)] for n, ds in deps.items()}
level = {}
for n in deps:
    def height(n):
        if n not in level:
            level[n] = 1 + max((height(d) for d in deps[n]), default=-1)
        return level[n]
    height(n)
rows = {}
for n in deps:
    rows.setdefault(level[n], []).append(n)

WIDTH, HEIGHT, GAP, STEP, EDGE = 104, 30, 18, 76, 16
widest = max(len(r) for r in rows.values())
total = widest * (WIDTH + GAP) - GAP + 2 * EDGE
place = {}
for l, r in rows.items():
    # a row's crates stand by the mean place of what they need
    r.sort(key=lambda n: sum(place[d][0] for d in direct[n]) / len(direct[n]) if direct[n] else 0)
    start = (total - (len(r) * (WIDTH + GAP) - GAP)) / 2
    for i, n in enumerate(r):
        place[n] = (start + i * (WIDTH + GAP) + WIDTH / 2, EDGE + l * STEP)
bottom = EDGE + max(rows) * STEP + HEIGHT + EDGE
out = [f'<svg xmlns="http://www.w3.org/2000/svg" viewBox="0 0 {total:.0f} {bottom}" width="{total:.0f}" height="{bottom}" font-family="sans-serif" font-size="13">',
       f'<rect width="{total:.0f}" height="{bottom}" fill="#ffffff"/>',
       '<defs><marker id="to" viewBox="0 0 8 8" refX="8" refY="4" markerWidth="7" markerHeight="7" orient="auto"><path d="M0 0 8 4 0 8z" fill="#777777"/></marker></defs>']
for n, ds in direct.items():
    x, y = place[n]
    for d in ds:
        u, v = place[d]
        out.append(f'<path d="M{x:.0f} {y:.0f} C{x:.0f} {y - 30:.0f} {u:.0f} {v + HEIGHT + 30:.0f} {u:.0f} {v + HEIGHT:.0f}" fill="none" stroke="#777777" marker-end="url(#to)"/>')
for n, (x, y) in place.items():
    fill = "#f3ecd8" if not any((root / "crates" / n / "src").glob("*.rt")) or n in ("definitions", "laws", "safety", "theorems", "demands") else "#dfeaf3"
    out.append(f'<rect x="{x - WIDTH / 2:.0f}" y="{y}" width="{WIDTH}" height="{HEIGHT}" rx="6" fill="{fill}" stroke="#444444"/>')
    out.append(f'<text x="{x:.0f}" y="{y + HEIGHT / 2 + 5:.0f}" text-anchor="middle" fill="#222222">{n}</text>')
out.append("</svg>")
(root / "docs" / "crates.svg").write_text("\n".join(out) + "\n")
