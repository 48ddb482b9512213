#!/usr/bin/env python3
"""Lists the places of crates/*/src/ at which a form of the language stands that often has a better one, for a person to read.

usage: python3 tools/places.py [-l]      at the top of the repository; -l prints each place and not only the counts

It goes by text, so a place that it lists may be right as it is, and one that it misses may not. Tests count too.
"""

import collections
import glob
import re
import sys


def strip(text):
    """The text without comments and strings; lines stay where they are."""
    return re.sub(r'//[^\n]*|b?"(?:[^"\\\n]|\\.)*"', "", text)


def line_of(text, at):
    return text.count("\n", 0, at) + 1


class Function:
    def __init__(self, path, name, line, head, body):
        self.path, self.name, self.line, self.head, self.body = path, name, line, head, body

    def place(self):
        return f"{self.path}:{self.line} {self.name}"


def closing(text, at):
    depth = 0
    for i in range(at, len(text)):
        depth += (text[i] == "{") - (text[i] == "}")
        if depth == 0:
            return i
    return len(text)


def functions(path, text):
    found = []
    for m in re.finditer(r"^[ \t]*(?:pub(?:\([a-z]+\))? )?(?:const )?(?:extern )?fn (\w+)", text, re.M):
        at = m.end()
        # the body begins at the brace that opens a line, or ends the line of a signature without clauses
        body = re.compile(r"(?:\n[ \t]*\{[ \t]*(?:\n|\})|\{\}|\{[ \t]*\n)").search(text, at)
        semi = re.compile(r";\s*\n").search(text, at)
        if body is None or (semi and semi.start() < body.start()):
            continue
        opens = text.index("{", body.start())
        found.append(Function(path, m.group(1), line_of(text, m.start()), text[at:opens], text[opens : closing(text, opens) + 1]))
    return found


def numbers_for_kinds(path, text):
    # constants that stand for kinds, states and refusals
    yield from ((m, m.group(0).strip()) for m in re.finditer(r"^pub const (?!PARCELS|SHEETS)[A-Z_]+: u(?:8|32) = \d+;", text, re.M) if not re.search(r"MOST|MAX|LAST", m.group(0)))
    # numbers that hold one of them, and answers that say yes or no with nothing or a number beside
    yield from ((m, m.group(0).strip()) for m in re.finditer(r"\b(?:pub )?(?:number: u32|state: u8|kind: u8),|fn entry_fault[^{]*-> u32|Option<\(\)>|Option<bool>", text))
    # enums, to be read: those of the shape of Option or Result, or with no derives
    yield from ((m, m.group(0).strip()) for m in re.finditer(r"^ *(?:pub(?:\([a-z]+\))? )?enum \w+", text, re.M))


def index_loops(path, text):
    yield from ((m, m.group(0).strip()) for m in re.finditer(r"^\s*while [^\n]*|(?:'\w+: )?for \w+ in [^\n]*\.\.[^\n]*", text, re.M))


def by_hand(path, text):
    names = r"same|at_least|stands_above|show_\w+|write_\w+|digit_count|value_of|as_\w+|to_\w+|from_\w+|is_equal|eq|cmp"
    yield from ((m, m.group(0)) for m in re.finditer(r"\bfn (?:" + names + r")\b", text))


def with_length(path, text):
    # a buffer and how far it is used
    yield from ((m, "buffer and place: " + " ".join(m.group(0).split())) for m in re.finditer(r"\w+: &mut \[\w+\],\s*(?:mut )?(?:at|listed|filled): usize", text))
    yield from ((m, "buffer and place: " + m.group(0).strip()) for m in re.finditer(r"let mut (?:filled|listed|place) = [^\n]*", text))
    # tables side by side, in a struct or among parameters, and links by number
    yield from ((m, "tables side by side: " + " ".join(m.group(0).split())) for m in re.finditer(r"\bothers: (?:&|Vec|usize)[^,]*,\s*(?:(?://[^\n]*)?\s*)*(?:pub )?keys: [^,]*,", text))
    yield from ((m, "by number: " + m.group(0).strip()) for m in re.finditer(r"\bpub (?:link: u32|(?:heads|tails): \[u32; \d+\])", text))


def switches(path, text):
    yield from ((m, m.group(0)) for m in re.finditer(r"\bmatch (?:&?\w*(?:turn|plan|end|order|step|note\.kind))\b|\bif note\.kind ==", text))


def tokens(body):
    return tuple("N" if t[0].isdigit() else "w" if re.match(r"\w", t) else t for t in re.findall(r"\w+|[^\w\s]", body))


def twins(all_functions):
    groups = collections.defaultdict(list)
    for f in all_functions:
        t = tokens(f.body)
        if len(t) >= 12:
            groups[t].append(f)
    return [g for g in groups.values() if len(g) > 1]


def repeated_clauses(all_functions):
    groups = collections.defaultdict(set)
    for f in all_functions:
        for m in re.finditer(r"^\s*(?:requires|ensures)\*?(?: \w+)? (\{.*\})\s*$", f.head, re.M):
            groups[re.sub(r"\.(?:now|old|new|entry)\b", "", m.group(1))].add(f.place())
    return [(c, fs) for c, fs in groups.items() if len(fs) >= 3]


def together(all_functions):
    groups = collections.defaultdict(set)
    for f in all_functions:
        names = re.findall(r"(?:mut )?(\w+): ", f.head.split("requires")[0].split("ensures")[0])
        names = [n for n in names if n not in ("rt",)]
        for size in (3, 4, 5):
            for i in range(len(names) - size + 1):
                groups[tuple(names[i : i + size])].add(f.place())
    kept = [(g, fs) for g, fs in groups.items() if len(fs) >= 3]
    # the longest of those that stand in the same functions
    return [(g, fs) for g, fs in kept if not any(len(h) > len(g) and fs <= hs for h, hs in kept)]


def main():
    listing = "-l" in sys.argv
    texts = {p: strip(open(p, encoding="utf-8").read()) for p in sorted(glob.glob("crates/*/src/**/*.rt", recursive=True))}
    every = [f for p, t in texts.items() for f in functions(p, t)]

    def show(title, places):
        print(f"{title}: {len(places)}")
        if listing:
            for p in places:
                print(f"    {p}")

    def by_text(title, rule):
        show(title, [f"{p}:{line_of(t, m.start() + len(m.group(0)) - len(m.group(0).lstrip()))} {said}" for p, t in texts.items() for m, said in rule(p, t)])

    by_text("1 numbers for kinds and refusals, own enums", numbers_for_kinds)
    show("2 functions of one shape, groups", [" = ".join(f.place() for f in g) for g in twins(every)])
    by_text("3 loops that count", index_loops)
    by_text("4 comparing, converting and printing by hand", by_hand)
    show("5 clauses in three functions or more", [f"{c} in {len(fs)}: {'; '.join(sorted(fs))}" for c, fs in repeated_clauses(every)])
    show("5 parameters together in three functions or more", [f"{', '.join(g)} in {len(fs)}: {'; '.join(sorted(fs))}" for g, fs in together(every)])
    by_text("6 buffers with a length, tables side by side, links", with_length)
    by_text("7 switches on a step", switches)


main()
