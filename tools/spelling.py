#!/usr/bin/env python3
"""Spells the repository's own definitions and lemmas as today's Rattle does: words in snake case; and lets plain structs and enums be copied.

usage: python3 tools/spelling.py     at the top of the repository, once, right after the kit's port.py

A name with a hump in a part that begins small, as noRanges or length-rangesOf, gets its words joined by _. Types, facts, functions of src/,
strings and files beside the sources keep theirs. What would fall together with another name is listed below, with the name that it gets.
"""

import os
import re

NAME = re.compile(r"[A-Za-z_ℕℤ][A-Za-z0-9_'ℕℤ-]*")
HUMP = re.compile(r"(?<=[a-z0-9'])([A-Z])")
# lemmas named as their function would be, and a definition named as a parameter beside it
OTHER = {"written_out": "written_out_lem", "stream_at": "stream_at_lem", "rest_in": "rest_in_lem", "read_live": "read_live_lem",
         "fileLen": "file_len_of", "lastDigits": "last_digits"}
# .. where these stand: a function of src/ of that name elsewhere keeps it
OTHER_IN = {
    "written_out": ("queue_lines/proofs/Said.antt", "queue_lines/specs/Said.antt", "line_calls/"),
    "stream_at": ("event/proofs/", "controlq/proofs/", "rules/proofs/", "pcm/proofs/", "stream/proofs/"),
    "rest_in": ("event/proofs/",),
    "read_live": ("live/proofs/",),
}


def part(text):
    if re.match(r"x[0-9A-F]+$", text):
        return text.lower()
    if not re.match(r"[a-z]", text) or not HUMP.search(text):
        return text
    return re.sub(r"[A-Z]", lambda m: m.group(0).lower(), HUMP.sub(r"_\1", text))


def named(name, path):
    if name in OTHER and (name not in OTHER_IN or any(p in path for p in OTHER_IN[name])):
        return OTHER[name]
    return "-".join(part(p) for p in name.split("-"))


def respelled(text, path):
    def turn(m):
        return m.group(0) if text[m.start() - 1 : m.start()] == "\\" else named(m.group(0), path)

    out = NAME.sub(turn, text)
    return out.replace("last_digits as last_digits", "last_digits")


def outside_strings(text, path):
    parts = re.split(r'("(?:[^"\\\n]|\\.)*")', text)
    return "".join(p if i % 2 else respelled(p, path) for i, p in enumerate(parts))


def copied(text):
    """Each struct or enum that lends nothing is copied."""
    def turn(m):
        body = m.group(0)
        return body if "&" in body or "Drop" not in body else body.replace("#[derive(Drop)]", "#[derive(Clone, Copy)]", 1)

    return re.sub(r"#\[derive\(Drop\)\]\n(?:pub )?(?:struct|enum) [^{;]*(?:\{.*?\n\}|;)", turn, text, flags=re.S)


def edit(text, path):
    """Of a must-fail edit the lines old: and new:, in the spelling that port.py gives the sources."""
    out = []
    for line in text.split("\n"):
        if line.startswith(("old:", "new:", "file:")):
            line = line.replace("′", "'")
            if line.startswith(("old:", "new:")):
                line = re.sub(r"(?<=[\w')»]) \.(?=[«\w])", ".", line)
                line = re.sub(r"\((\w+(?:\.[«\w»]+)+)\)", r"\1", line.replace("getD", "get_or"))
                line = outside_strings(line, path)
        out.append(line)
    return "\n".join(out)


def main():
    for folder, dirs, files in os.walk("crates"):
        dirs[:] = sorted(d for d in dirs if d != "out")
        for f in sorted(files):
            path = os.path.join(folder, f)
            if not f.endswith((".rt", ".antt", ".edit")):
                continue
            with open(path, encoding="utf-8") as src:
                text = src.read()
            if f.endswith(".edit"):
                new = edit(text, path)
            elif f.endswith(".rt"):
                new = copied(outside_strings(text, path))
            else:
                new = respelled(text, path)
            if new != text:
                with open(path, "w", encoding="utf-8") as dst:
                    dst.write(new)


main()
