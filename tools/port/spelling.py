#!/usr/bin/env python3
"""Brings the repository's own definitions, lemmas, fields and constructors to snake case.

usage: python3 tools/port/spelling.py [--check]     at the top, once, right after port.py

It renames in specs/ and proofs/, in the clauses and comments of src/, in must-fail edits and between backticks of pages. Functions of src/, exported C names and strings
keep their names. --check writes nothing and lists the new names that a file has already.
"""

import collections
import os
import re
import sys

TOKEN = re.compile(r"[^\s(){}\[\];,.@\"«»`:λ∥⌜⌝]+")
HEAD = re.compile(r"^(\s*)(?:(?:abbrev|unfoldable|pub|opaque)\s+)*([a-z][^\s(){}\[\];,.@\"«»:]*)\s+:(?:\s|$)")
CASE = re.compile(r"^\s+\|?\s*([a-z][^\s(){}\[\];,.@\"«»:]*)\s+:(?:\s|$)")
# A definition may not have the name of a field, a parameter or another definition; a lemma beside a definition gets '_lem'.
OWN = {
    "areaFactor": "area_factor_of",
    "bendFactor": "bend_factor_of",
    "recordSize": "record_size_of",
    "rowCount": "row_count_of",
    "rowsLeft": "rows_left_of",
    "candidatesLeft": "candidates_left_of",
    "onEdge": "hung_on_edge",
    "notLeast": "not_least_result",
    "bytes-at": "bytes_at_lem",
    "any-of": "any_of_lem",
    "same-list": "same_list_lem",
    # fields and constructors, which a reader of specs/ meets
    "on-sphere": "by_sphere",
    "on-circle": "by_circle",
    "hinge-weight": "hinge_weights",
    "normal-in": "normal_in",
    "own-weight": "own_weights",
    "other-edition": "in_other_edition",
    "in-range": "ranged",
    "length-wrong": "wrong_length",
    "over-limit": "above_limit",
    "record-at": "at_record",
}
# A word of clauses now: what an outcome, a judgement or a quote and the tables left with it make.
RESULT = re.compile(r"(?<![\w.'-])result(?![\w'-])|(?<=\b(?:price|judge|tiler)\.)result(?![\w'-])|(?<=\bquote\.)result(?![\w'-])")


def snake(name):
    name = re.sub(r"(?<=[a-z0-9])([A-Z])", lambda m: "_" + m.group(1).lower(), name)
    return name.replace("-", "_")


def files(ends):
    for folder, dirs, names in os.walk("crates"):
        dirs[:] = sorted(d for d in dirs if d != "out")
        for name in sorted(names):
            if name.endswith(ends):
                yield os.path.join(folder, name)


def is_lemma_file(path):
    parts = path.split("/")
    return parts[2] == "specs" or len(parts) == 4


def text_of(path):
    with open(path, encoding="utf-8") as f:
        return f.read()


def declared():
    found = collections.defaultdict(set)
    for path in files(".antt"):
        if not is_lemma_file(path):
            continue
        for line in text_of(path).split("\n"):
            m = HEAD.match(line)
            if m:
                found[m.group(2)].add(path)
    return found


def table(found):
    new = {}
    for name in found:
        if re.search(r"[a-z0-9][A-Z]", name) or re.search(r"\w-\w", name):
            new[name] = OWN.get(name, snake(name))
    taken = collections.defaultdict(list)
    for name, to in new.items():
        taken[to].append(name)
    for to, names in taken.items():
        if len(names) > 1 or (to in found and to not in new):
            for name in names:
                if "-" in name and name not in OWN:
                    new[name] = to + "_lem"
    return new


def comment_at(line):
    m = re.search(r"(?:^|\s)--(?:\s|$)", line)
    return m.start() if m else len(line)


def in_ticks(text, new):
    def word(m):
        return "`" + TOKEN.sub(lambda t: new.get(t.group(0), t.group(0)), m.group(1)) + "`"

    return re.sub(r"`([^`\n]*)`", word, text)


def turn_antt(path, text, new, camel):
    own, imported = None, set()
    crates = set(os.listdir("crates"))
    foreign = set()
    for m in re.finditer(r"(?m)^\s*(?:pub )?use ([^\s{]+?)\.\{([^}]*)\}", text):
        parts = m.group(1).split(".")
        if parts[0] != "Rattle" or parts[1] not in crates:
            foreign |= {w.strip() for w in m.group(2).split(",")}
    new = {a: b for a, b in new.items() if a not in foreign}
    if not is_lemma_file(path):
        own = {m.group(2) for m in map(HEAD.match, text.split("\n")) if m and " tie." not in m.string and "goal." not in m.string}
        own -= {m.group(2) for m in map(HEAD.match, text.split("\n")) if m and re.search(r":\s*(tie|goal)\.", m.string)}
        for m in re.finditer(r"(?m)^\s*(?:pub )?use [^\n{]*\{([^}]*)\}", text):
            imported |= {w.strip() for w in m.group(1).split(",")}

    def put(m, line):
        word = m.group(0)
        to = new.get(word)
        if to is None:
            if own is not None and word in own and re.search(r"\w-\w", word) and not word.endswith("-spec"):
                return snake(word)
            return word
        if own is None or word in camel or word in imported or word in own:
            return to
        before = line[: m.start()]
        if before.endswith(".") and re.search(r"(lem|laws?|[a-z])\.$", before):
            return to
        return word

    lines = []
    for line in text.split("\n"):
        at = comment_at(line)
        code, said = line[:at], line[at:]
        code = TOKEN.sub(lambda m: put(m, code), code)
        said = TOKEN.sub(lambda m: camel.get(m.group(0), m.group(0)), said)
        lines.append(code + in_ticks(said, new))
    return "\n".join(lines)


def turn_rt(text, camel):
    lines = []
    for line in text.split("\n"):
        if '"' not in line:
            line = re.sub(r"(?<![\w.])[a-z]\w*[A-Z0-9]\w*", lambda m: camel.get(m.group(0), m.group(0)), line)
            line = re.sub(r"(?<=\.)[a-z]\w*[A-Z]\w*", lambda m: camel.get(m.group(0), m.group(0)), line)
        lines.append(line)
    return "\n".join(lines)


def turn_result(path, text):
    if path.endswith(".rt"):
        out = []
        for line in text.split("\n"):
            out.append(line)
        text = "\n".join(out)
        if re.search(r"(?m)^ghost use [^\n]*Call\.\{[^}]*\bresult\b", text):
            text = re.sub(r"(?m)^(ghost use [^\n]*Call\.\{[^}]*)\bresult\b", r"\1result_of", text)
            text = text.replace("⌜ result r ", "⌜ result_of r ")
        return text.replace("tiler.result r", "tiler.result_of r")
    if re.search(r"(?m)^use Rattle\.(triangulator\.specs\.Call|judge\.specs\.Call|pricing\.specs\.Quote)\.\{[^}]*\bresult\b", text) or re.search(
        r"(?m)^abbrev pub result :", text
    ) or re.search(r"\b(price|judge|tiler|quote)\.result\b", text):
        lines = []
        for line in text.split("\n"):
            at = comment_at(line)
            lines.append(RESULT.sub("result_of", line[:at]) + line[at:])
        return "\n".join(lines)
    return text


def main(argv):
    check = "--check" in argv
    found = declared()
    new = table(found)
    camel = {a: b for a, b in new.items() if "-" not in a}
    said = 0
    for path in list(files((".antt", ".rt", ".edit"))):
        text = text_of(path)
        before = {m.group(0) for line in text.split("\n") for m in TOKEN.finditer(line[: comment_at(line)] if path.endswith(".antt") else line)}
        if path.endswith(".antt"):
            turned = turn_antt(path, turn_result(path, text), new, camel)
        elif path.endswith(".rt"):
            turned = turn_rt(turn_result(path, text), camel)
        else:
            turned = TOKEN.sub(lambda m: camel.get(m.group(0), m.group(0)), text) if "file: specs" in text else turn_rt(text, camel)
        if turned != text:
            for a in sorted(before & set(new)):
                if new[a] in before and (not path.endswith(".rt")):
                    print(f"look: {path}: {a} and {new[a]}")
                    said += 1
            if not check:
                with open(path, "w", encoding="utf-8") as f:
                    f.write(turned)
    for page in [p for top in ("docs", ".") for p in ([os.path.join(r, f) for r, _, fs in os.walk(top) for f in fs] if top == "docs" else ["README.md"]) if p.endswith(".md") and "landings" not in p]:
        text = text_of(page)
        turned = in_ticks(text, new)
        if turned != text and not check:
            with open(page, "w", encoding="utf-8") as f:
                f.write(turned)
    print(f"{len(new)} names; {said} to look at")


if __name__ == "__main__":
    main(sys.argv[1:])
