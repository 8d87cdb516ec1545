#!/usr/bin/env python3
"""Draws docs/layers.svg (the crates, lower ones below) and docs/recipe-a.svg (recipe A as a graph, with its two verdicts).
Usage: tools/figures.py, in the repository."""
import os

INK, PALE, LINE, RED = "#222", "#eef3f8", "#6b7f93", "#b3261e"


def text(x, y, words, size=14, anchor="middle", colour=INK, weight="normal"):
    return (f'<text x="{x}" y="{y}" text-anchor="{anchor}" font-family="sans-serif" '
            f'font-size="{size}" font-weight="{weight}" fill="{colour}">{words}</text>')


def box(x, y, w, h, name, lines, fill=PALE):
    out = [f'<rect x="{x}" y="{y}" width="{w}" height="{h}" rx="6" fill="{fill}" stroke="{LINE}"/>',
           text(x + w / 2, y + 20, name, 15, weight="bold")]
    for i, line in enumerate(lines):
        out.append(text(x + w / 2, y + 40 + 17 * i, line, 12))
    return out


def arrow(x1, y1, x2, y2, colour=LINE, width=1.5, dash=""):
    style = f' stroke-dasharray="{dash}"' if dash else ""
    head = "red" if colour == RED else "grey"
    return (f'<line x1="{x1}" y1="{y1}" x2="{x2}" y2="{y2}" stroke="{colour}" '
            f'stroke-width="{width}"{style} marker-end="url(#{head})"/>')


def svg(width, height, parts, title):
    heads = "".join(
        f'<marker id="{name}" viewBox="0 0 10 10" refX="9" refY="5" markerWidth="7" markerHeight="7" '
        f'orient="auto-start-reverse"><path d="M0 0L10 5L0 10z" fill="{colour}"/></marker>'
        for name, colour in (("grey", LINE), ("red", RED)))
    return (f'<svg xmlns="http://www.w3.org/2000/svg" viewBox="0 0 {width} {height}" '
            f'width="{width}" height="{height}" role="img">\n<title>{title}</title>\n<defs>{heads}</defs>\n'
            f'<rect width="{width}" height="{height}" fill="white"/>\n' + "\n".join(parts) + "\n</svg>\n")


def layers():
    parts = []
    # programs
    parts += box(20, 20, 180, 62, "judge", ["prints what files come to"], "white")
    parts += box(440, 20, 180, 62, "walk", ["follows a list of nodes"], "white")
    parts += box(650, 20, 180, 62, "inspect", ["shows a recipe file"], "white")
    # what they print
    parts += box(20, 120, 180, 80, "judging", ["from a file's bytes", "to verdicts and traces"])
    parts += box(230, 120, 180, 80, "one_link", ["a verdict with", "one edge more"])
    parts += box(440, 120, 180, 80, "following", ["what is said of a walk,", "step by step"])
    parts += box(650, 480, 180, 80, "explaining", ["why a file is refused:", "the rule it breaks"])
    # the layers
    parts += box(20, 240, 180, 80, "asking", ["the law of the answers,", "and lists of requests"])
    parts += box(20, 360, 180, 80, "inquiry", ["the search: dig, link,", "verdict, trace"])
    parts += box(440, 360, 180, 80, "walker", ["steps along a given", "list of nodes"])
    parts += box(230, 480, 180, 80, "rules", ["rules of access,", "and watches"])
    parts += box(230, 600, 180, 80, "recipe", ["the file: take, check,", "read, write"])
    parts += box(230, 720, 180, 80, "model", ["the words of the subject,", "and the mathematics"])
    for a in [(110, 82, 110, 118), (530, 82, 530, 118), (740, 82, 740, 478), (110, 200, 110, 238), (300, 200, 180, 238),
              (530, 200, 530, 358), (110, 320, 110, 358), (202, 290, 438, 380), (110, 440, 228, 505), (530, 440, 412, 505),
              (320, 560, 320, 598), (740, 560, 412, 635), (320, 680, 320, 718)]:
        parts.append(arrow(*a))
    # inspect also rests on the rules
    parts.append(f'<path d="M665 82 L 636 112 L 636 530 L 412 530" fill="none" stroke="{LINE}" stroke-width="1.5" marker-end="url(#grey)"/>')
    parts.append(text(425, 826, "An arrow: rests on (what follows from others is left out).", 12))
    parts.append(text(425, 844, "Not drawn: showing and judge_files, which hold what programs share, and what is for tests.", 12))
    return svg(850, 860, parts, "The crates, and which rests on which")


def node(x, y, n, what, mark="", bad=False):
    colour = RED if bad else LINE
    out = [f'<circle cx="{x}" cy="{y}" r="22" fill="white" stroke="{colour}" stroke-width="{2.5 if bad else 1.5}"/>',
           text(x, y + 5, n, 16, weight="bold"), text(x, y + 40, what, 12)]
    if mark:
        out.append(text(x, y - 30, mark, 12, colour=RED if bad else INK))
    return out


def method(x, y, w, name, rights):
    return [f'<rect x="{x}" y="{y}" width="{w}" height="140" rx="8" fill="{PALE}" stroke="{LINE}"/>',
            text(x + 12, y + 130, f"{name}, rights {rights}", 13, "start", weight="bold")]


def dashed(path):
    return f'<path d="{path}" fill="none" stroke="{RED}" stroke-width="2" stroke-dasharray="5 4" marker-end="url(#red)"/>'


def recipe_a():
    parts = method(20, 40, 420, "main", "{0, 1}") + method(480, 40, 190, "method 1", "{0}") + method(20, 230, 420, "method 2", "{0, 1}")
    for x, y, n, what, mark, bad in [(90, 105, "0", "calls method 1", "", False), (230, 105, "1", "calls method 2", "", False),
                                     (370, 105, "2", "returns", "", False), (575, 105, "3", "returns", "mark 1", False),
                                     (90, 295, "4", "check of {1}", "", False), (230, 295, "5", "nop", "mark 2", True),
                                     (370, 295, "6", "returns", "", False)]:
        parts += node(x, y, n, what, mark, bad)
    for x1, y1, x2, y2 in [(112, 105, 206, 105), (252, 105, 346, 105), (112, 295, 206, 295), (252, 295, 346, 295)]:
        parts.append(arrow(x1, y1, x2, y2))
    # the run that goes bad: into method 1, back to node 1, into method 2, past the check
    parts.append(dashed("M98 84 C 180 10, 480 10, 556 92"))
    parts.append(dashed("M556 116 C 480 172, 300 190, 246 123"))
    parts.append(dashed("M214 121 C 150 190, 120 210, 100 272"))
    parts.append(dashed("M113 302 L 206 302"))
    parts.append(text(480, 245, "Mark 2 must not come after mark 1.", 13, "start"))
    parts.append(text(480, 275, "history: safe, 4 facts", 13, "start", weight="bold"))
    parts.append(text(480, 293, "method 1 leaves main only right 0,", 12, "start"))
    parts.append(text(480, 309, "so the check stops every run", 12, "start"))
    parts.append(text(480, 334, "stack: unsafe, 7 facts", 13, "start", RED, "bold"))
    parts.append(text(480, 352, "trace 0 3 1 4 5", 12, "start", RED))
    parts.append(text(345, 396, "Grey: the edges. Dashed: the run that goes bad under stack inspection.", 12))
    return svg(740, 410, parts, "Recipe A, and its two verdicts")


here = os.path.join(os.path.dirname(os.path.abspath(__file__)), "..", "docs")
for name, drawing in (("layers.svg", layers()), ("recipe-a.svg", recipe_a())):
    with open(os.path.join(here, name), "w", encoding="utf-8") as out:
        out.write(drawing)
