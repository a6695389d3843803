#!/usr/bin/env python3
"""Brings the repository's own definitions and lemmas to snake case, after port.py has turned the library's names.

usage: tools/own_names.py [--check] [FOLDER]     the top of the repository, by default the one that holds this script

A name is ours where a file of specs/ or proofs/ declares it: a definition, a lemma, a field, a constructor; so is a
variable in camel case. What begins with a capital stays, a label that Rattle makes for a function's proof too. It turns
whole words, in .antt files, in what a .rt file says in antt and in the texts of must-fail edits; of comments only words
in code spans and words in camel case. --check writes nothing and lists names that would fall together.
"""

import collections
import os
import re
import sys

WORD = re.compile(r'[^\s(){}.;,@"«»]+')
DECLARED = re.compile(
    r"(?m)^ *(?:(?:pub|abbrev|unfoldable|opaque) +)*([^\s(){}.;,@\"«»]+)(?: \{[^{}\n]*\})* :(?=\s)(.*)"
)
QUIET = re.compile(r'"(?:[^"\\\n]|\\.)*"|(?<![^\s(){}.;,@"«»])--[^\n]*')
SPAN = re.compile(r"`[^`\n]+`")
USE = re.compile(r"\buse ([^\s;{]+)\{([^}]*)\}")
CLAUSE = re.compile(r"(?:requires|ensures)\s*\*?\s*(?:\w+\s*)?\{|ghost\s+use\b")

# Names whose snake case another name has already.
OTHERWISE = {
    "best-below": "best_stays_below",
    "bit-and": "bit_of_and",
    "bit-or": "bit_of_or",
    "buffer-free": "buffer_is_free",
    "buffer-read": "buffer_is_read",
    "buffer-rows": "buffer_rows_alike",
    "digit-AF": "digit_upper",
    "digit-af": "digit_lower",
    "element-bytes": "element_bytes_back",
    "entry-at": "entry_is_at",
    "event-in": "event_read_in",
    "event-kept": "event_is_kept",
    "event-rows": "event_rows_alike",
    "event-top": "event_top_is",
    "fifo-read": "fifo_is_read",
    "fifo-ring": "fifo_ring_is",
    "fifo-rows": "fifo_rows_alike",
    "form-sum": "form_sum_is",
    "frame-in": "frame_read_in",
    "frame-yes-nos": "frame_yes_nos_are",
    "free-buffer": "buffer_freed",
    "getD-run": "get_or_run",
    "in-fifo": "is_in_fifo",
    "into-buffer": "goes_into_buffer",
    "into-fifo": "goes_into_fifo",
    "is-allowed": "allowed_is",
    "is-chosen": "chosen_is",
    "is-full": "full_is",
    "is-latest": "latest_is",
    "is-pending": "pending_is",
    "kept-flags": "kept_flags_sound",
    "least-from": "least_from_above",
    "memory-most": "memory_at_most",
    "no-event": "event_is_none",
    "no-flags": "no_flags_set",
    "own-lengths": "own_lengths_are",
    "place-free": "place_is_free",
    "place-in": "place_is_in",
    "released-through": "released_through_is",
    "rx-read": "rx_read_is",
    "rx-top": "rx_top_is",
    "section-row": "section_row_is",
    "shared-unfit": "shared_is_unfit",
    "slot-noted": "slot_is_noted",
    "slot-place": "slot_has_place",
    "turned-away": "is_turned_away",
    "tx-sum": "tx_sum_is",
    "tx-top": "tx_top_is",
    "◌orElse◌": "◌or_else◌",
}


def texts(top):
    for folder, folders, files in os.walk(os.path.join(top, "crates")):
        folders[:] = sorted(f for f in folders if f != "out")
        yield from (os.path.join(folder, f) for f in sorted(files) if f.endswith((".antt", ".rt", ".edit")))


def read(path):
    with open(path, encoding="utf-8") as f:
        return f.read()


def in_snake_case(name):
    words = re.sub(r"(?<=[a-z0-9])[A-Z]+", lambda m: "_" + m[0].lower(), name)
    return re.sub(r"(?<=\w)-(?=\w)", "_", words)


def is_of_a_function(path):
    return re.search(r"/proofs/.+/(Proof|Answers|Invariants)\.antt$", path)


def ours(top):
    names = set()
    for path in texts(top):
        for name, kind in DECLARED.findall(read(path)) if path.endswith(".antt") else ():
            made = is_of_a_function(path) and re.match(r"\s*(tie|goal)\.", kind)
            if not name[0].isupper() and not made:
                names.add(name)
        if not is_of_a_function(path) and not path.endswith(".edit"):
            code = QUIET.sub(" ", re.sub("//.*", "", read(path)))
            camel = {word for word in WORD.findall(code) if re.match("[a-z]+[0-9]*[A-Z]", word)}
            names |= camel - brought(code)
    return names


def table(top):
    turned = {name: OTHERWISE.get(name, in_snake_case(name)) for name in ours(top)}
    # an operator is written without the circles where it stands between its arguments
    turned |= {old.strip("◌"): new.strip("◌") for old, new in turned.items() if re.fullmatch(r"◌\w+◌", old)}
    return {old: new for old, new in turned.items() if old != new}


def between(pattern, text, inside, outside):
    parts, at = [], 0
    for m in pattern.finditer(text):
        parts += [outside(text[at : m.start()]), inside(m[0])]
        at = m.end()
    return "".join(parts + [outside(text[at:])])


class Turner:
    def __init__(self, names):
        self.names = names

    def words(self, text):
        return WORD.sub(lambda m: self.names.get(m[0], m[0]), text)

    def prose(self, text):
        camel = lambda m: self.names.get(m[0], m[0]) if re.search("[a-z0-9][A-Z]", m[0]) else m[0]
        bare = lambda t: re.sub(r"[\w']+", camel, t)
        return between(SPAN, text, lambda t: "`" + self.words(t[1:-1]) + "`", bare)

    def antt(self, text):
        quiet = lambda t: t if t[0] == '"' else self.prose(t)
        return between(QUIET, text, quiet, self.words)

    def edit(self, text):
        return re.sub(r"(?m)^(?:old|new): .*", lambda m: self.words(m[0]), text)

    def rt(self, text):
        parts, at = [], 0
        token = re.compile(r'//[^\n]*|"(?:\\.|[^"\\])*"|' + CLAUSE.pattern)
        while m := token.search(text, at):
            parts.append(text[at : m.start()])
            end = m.end()
            if m[0].startswith("//"):
                parts.append(self.prose(m[0]))
            elif m[0].startswith('"'):
                parts.append(m[0])
            else:
                end = closing(text, m.end()) if m[0].endswith("{") else text.index(";", m.end())
                parts += [m[0], self.antt(text[m.end() : end])]
            at = end
        return "".join(parts + [text[at:]])


def brought(text):
    """The names that a file brings in from a library."""
    names = set()
    for where, items in USE.findall(text):
        steps = where.split(".")
        if steps[0] != "Rattle" or steps[1] == "std":
            names.update(WORD.findall(items))
    return names


def closing(text, at):
    depth = 1
    for m in re.compile(r"[{}]").finditer(text, at):
        depth += 1 if m[0] == "{" else -1
        if depth == 0:
            return m.start()
    raise ValueError("a clause without an end")


def look(top, names):
    """Lists where a new name stands already, and names that would be the same."""
    same = collections.defaultdict(list)
    for old, new in names.items():
        same[new].append(old)
    for new, olds in sorted(same.items()):
        if len(olds) > 1:
            print(f"the same: {', '.join(sorted(olds))} would be {new}")
    for path in texts(top):
        text = read(path)
        code = QUIET.sub(" ", text) if path.endswith(".antt") else text
        here = set(WORD.findall(code))
        for name in sorted(brought(code) & set(names)):
            print(f"{os.path.relpath(path, top)}: {name} stays, since a library brings it in")
        for old in sorted(here & set(names) - brought(code)):
            if names[old] in here:
                print(f"{os.path.relpath(path, top)}: {old} would be {names[old]}, which stands here")


def main(words):
    check = "--check" in words
    folders = [w for w in words if w != "--check"]
    top = folders[0] if folders else os.path.join(os.path.dirname(os.path.abspath(__file__)), "..")
    names = table(top)
    if check:
        look(top, names)
        print(f"{len(names)} names")
        return
    changed = 0
    for path in list(texts(top)):
        old = read(path)
        theirs = brought(QUIET.sub(" ", old))
        turner = Turner({name: new for name, new in names.items() if name not in theirs})
        new = {".antt": turner.antt, ".rt": turner.rt, ".edit": turner.edit}[os.path.splitext(path)[1]](old)
        if new != old:
            changed += 1
            with open(path, "w", encoding="utf-8") as f:
                f.write(new)
    print(f"{len(names)} names, {changed} files")


if __name__ == "__main__":
    main(sys.argv[1:])
