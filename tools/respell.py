#!/usr/bin/env python3
"""Respells the definitions and lemmas of crates/ in snake case, where they are declared and cited.

usage: python3 tools/respell.py          at the top of the repository; files are rewritten in place

Types, modules, functions of src/, exported names, strings, inputs and outputs keep their names. A
lemma whose new name is that of a definition gets `_lem`. The answers of a walk by hand, which go by
the names that the check makes, keep theirs.
"""

import os
import re
import sys

HEAD = re.compile(r"^((?:abbrev |unfoldable |pub |ruleset )*)([^\s(){}\[\],;.\"]+) :(?= |$)")
MEMBER = re.compile(r"^ +(?:pub )?([^\s(){}\[\],;.\"|→λ]+) :(?= |$)")
TOKEN = re.compile(r'"(?:[^"\\]|\\.)*"|[^\s(){}\[\],;."⌜⌝∥`]+|\.')
STEM = re.compile(r"^[A-Za-z][A-Za-z0-9_'₀-₉-]*$")
MANUAL = {
    "Arithmetic-Shift-Right",
    "Logical-Shift-Left",
    "Logical-Shift-Right",
    "Rotate-Right",
}
# a lemma that would have the name of one of the library's
OTHERS = {"bool-byte": "bool_byte_lem"}
# names in one file that would hide the definition that the file cites
LOCAL = {
    "crates/claim_reasons/proofs/Claims.antt": {"has_code": "has_code_lem"},
    "crates/call_pages/proofs/Blanks.antt": {"left_in": "left_in_lem"},
    "crates/claim_meaning/proofs/Blocks.antt": {"in_order": "in_order_lem"},
    "crates/call_unit/proofs/Claims.antt": {"as_before": "as_before_lem"},
}
# names that two files declare each for itself
APART = {"left_in", "has_code", "go_on", "set_word", "base_back", "count_at", "too_short"}
APART |= {"as_before", "with_root", "in_order", "keys_from"}


def snake(name):
    name = name.replace("-", "_")
    name = re.sub(r"([a-z0-9₀-₉])([A-Z])", r"\1_\2", name)
    name = re.sub(r"([A-Z]+)([A-Z][a-z])", r"\1_\2", name)
    return name.lower()


def files(root, *endings):
    for folder, dirs, names in os.walk(os.path.join(root, "crates")):
        dirs[:] = sorted(d for d in dirs if d != "out")
        for name in sorted(names):
            if name.endswith(endings):
                yield os.path.join(folder, name)


def read(path):
    with open(path, encoding="utf-8") as f:
        return f.read()


def is_walk(path):
    return bool(re.search(r"/proofs/.+/Proof\.antt$", path))


def blocks(text):
    """The declarations of a file, each with the lines that belong to it."""
    lines = text.split("\n")
    starts = [i for i, l in enumerate(lines) if l and not l[0].isspace() and not l.startswith("--")]
    for i, j in zip(starts, starts[1:] + [len(lines)]):
        yield lines[i:j]


def flat(each):
    """The same, with the declarations of a module of parameters in place of the module."""
    for block in each:
        if re.match(r"^(pub )?module ", block[0]):
            inner = "\n".join(l[2:] if l.startswith("  ") else "" for l in block[1:])
            yield from flat(blocks(inner))
        else:
            yield block


def declared(path, text):
    """Yields each name that a file declares, and whether it is a definition (a word) or a lemma."""
    for block in flat(blocks(text)):
        first = block[0]
        if re.match(r"^(pub )?(data|record) ", first):
            for line in block[1:]:
                m = MEMBER.match(line)
                if m and not line.strip().startswith("--"):
                    yield m.group(1), True
            continue
        m = HEAD.match(first)
        if not m:
            continue
        if is_walk(path) and re.search(r"\btie\.|\bstatement M", "\n".join(block)):
            continue
        yield m.group(2), bool(re.match(r"^(abbrev|unfoldable)", first))


def fields(root):
    """The names of the fields of records, which stand behind a dot too."""
    found = set()
    for path in files(root, ".antt"):
        for block in flat(blocks(read(path))):
            if re.match(r"^(pub )?record ", block[0]):
                found |= {m.group(1) for m in map(MEMBER.match, block[1:]) if m}
    return found


def answers(path, text):
    """The names of a walk's own answers, which stay in that file."""
    if not is_walk(path):
        return set()
    return {
        HEAD.match(b[0]).group(2)
        for b in blocks(text)
        if HEAD.match(b[0]) and re.search(r"\btie\.|\bstatement M", "\n".join(b))
    }


USE = re.compile(r"(?ms)^use ([\w.+'-]+?)\.\{([^}]*)\}")


def borrowed(root, text):
    """The names that a file takes from the library, which stay as they are there."""
    own = {f"Rattle.{crate}" for crate in os.listdir(os.path.join(root, "crates"))}
    return {
        name.split(" as ")[0].strip()
        for module, names in USE.findall(text)
        if ".".join(module.split(".")[:2]) not in own
        for name in names.split(",")
    }


def mapping(root):
    words, lemmas = set(), set()
    for path in files(root, ".antt"):
        for name, is_word in declared(path, read(path)):
            (words if is_word else lemmas).add(name)
    all_names = words | lemmas
    new = {}
    for name in sorted(all_names):
        if name in MANUAL or (STEM.match(name) and name[0].islower() and snake(name) != name):
            new[name] = snake(name)
    for name in sorted(new):
        alike = [o for o in all_names if o != name and new.get(o, o) == new[name]]
        if alike and name not in words:
            if any(o in words for o in alike) or any("-" not in o for o in alike):
                new[name] += "_lem"
    new |= {k: v for k, v in OTHERS.items() if k in new}
    return new, all_names


def together(new, all_names):
    """Names that fall together in spite of all."""
    by = {}
    for name in all_names:
        by.setdefault(new.get(name, name), set()).add(name)
    return {n: s for n, s in by.items() if len(s) > 1 and n not in APART}


def turned(text, new, keep, aliases, dashes, dotted=frozenset()):
    out, at, before = [], 0, []
    for m in TOKEN.finditer(text):
        token = m.group(0)
        to = None
        if token[0] != '"' and token not in keep:
            bare = token.rstrip(":?!")
            if bare in new and ("-" not in bare or dashes):
                path = before[-1:] == ["."] and m.start() == before_end
                cited = not path or before[-2][0].isupper() or before[-2] in aliases
                if "-" not in bare or cited or bare in dotted:
                    to = new[bare] + token[len(bare):]
        if to is not None:
            out += [text[at:m.start()], to]
            at = m.end()
        before = (before + [token])[-2:]
        before_end = m.end()
    out.append(text[at:])
    return "".join(out)


def main():
    root = os.getcwd()
    new, all_names = mapping(root)
    fallen = together(new, all_names)
    if fallen:
        print(f"fall together: {fallen}", file=sys.stderr)
        return 1
    changed = 0
    own_fields = fields(root)
    for path in files(root, ".antt", ".rt", ".edit"):
        text = read(path)
        antt = path.endswith(".antt")
        aliases = set(re.findall(r"(?m)^use [\w.+]+ as ([\w']+)$", text)) - {"tie"}
        dashes = antt or bool(re.search(r"(?m)^file: .*\.antt$", text))
        local = LOCAL.get(os.path.relpath(path, root), {})
        to = turned(text, local, set(), set(), True)
        dotted = set() if is_walk(path) else own_fields
        to = turned(to, new, answers(path, text) | borrowed(root, text), aliases, dashes, dotted)
        if to != text:
            with open(path, "w", encoding="utf-8") as f:
                f.write(to)
            changed += 1
    print(f"{len(new)} names, {changed} files")
    return 0


if __name__ == "__main__":
    raise SystemExit(main())
