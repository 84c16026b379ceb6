#!/usr/bin/env python3
"""Turns each proofs/F/Proof.antt that closes a 'Tie' into Invariants.antt and Answers.antt.

usage: python3 tools/port/answers.py CRATE NAMES.json     at the top; NAMES.json is of `rt check --generated DIR --old-names` in that crate

It takes the goals' and steps' names from NAMES.json, leaves out what `search rules` and `omega arith` answer, and keeps helpers beside the answers.
"""

import json
import os
import re
import sys

TOKEN = re.compile(r"[^\s(){}\[\];,.@\"«»`:λ∥⌜⌝]+")
PATH = re.compile(r"(?<![\w.'-])([a-zA-Z][\w'₀₁₂-]*)((?:\.[^\s(){}\[\];,.@\"«»`:λ∥⌜⌝]+)+)")
KEEP = {"args", "ranges", "requires", "well_formed", "lifetimes", "result", "before"}


def norm(word):
    return word.replace("_", "-")


def blocks(text):
    """The comments and 'use' lines at the head, and each declaration with the comments above it."""
    head, decls, pending = [], [], []
    lines = text.rstrip("\n").split("\n")
    i = 0
    while i < len(lines):
        line = lines[i]
        if line.startswith("use ") or line.startswith("pub use "):
            head += pending + [line]
            pending = []
            i += 1
        elif line.startswith("--"):
            pending.append(line)
            i += 1
        elif not line.strip():
            i += 1
        else:
            start = i
            i += 1
            while i < len(lines) and (not lines[i].strip() or lines[i][0].isspace() or lines[i].startswith(")") or same_head(lines[start], lines[i])):
                if not lines[i].strip():
                    j = i
                    while j < len(lines) and not lines[j].strip():
                        j += 1
                    if j == len(lines) or not (lines[j][0].isspace()):
                        break
                i += 1
            decls.append((pending, lines[start:i]))
            pending = []
    return head, decls


def name_of(line):
    words = line.split()
    while words and words[0] in ("abbrev", "pub", "unfoldable", "opaque", "record", "data"):
        words = words[1:]
    return words[0] if words else ""


def same_head(first, line):
    return line.startswith("unfolding") or name_of(line) == name_of(first) or line.split()[0] == name_of(first)


class Names:
    def __init__(self, it):
        self.goals = {}
        for old, new in it["needs"]:
            self.goals.setdefault(norm(old), new)
        self.steps = {}
        self.facts = {}
        for old, _, (a, b), _, facts in it["places"]:
            if a:
                self.steps.setdefault(norm(a), b)
                self.facts.setdefault(b, {}).update(dict(facts))
        self.places = {}
        for (old, *_), new in zip(it["places"], it["places_by_name"]):
            self.places.setdefault(norm(old), new)
        for old, new in it["asked_at"]:
            self.places.setdefault(norm(old), new)
        self.args = {}
        for old, new in it["args"]:
            if old.startswith(".args "):
                self.args[old[7:].strip(".")] = new[7:].strip(".")
        self.loops = {}
        for ((a, b), vars_), changed in zip(it["loops"], it["changed"]):
            self.loops[norm(a)] = (b, vars_, changed)

    def goal(self, old):
        w = norm(old)
        for _ in range(3):
            if w in self.goals:
                return self.goals[w]
            w = w.partition("-")[2]
        return None

    def step(self, old):
        w = norm(old)
        for it in (w, re.sub(r"-lem$", "", w), re.sub(r"-lem(?=-?\d*$)", "", w)):
            if it in self.steps:
                return self.steps[it]
            if re.sub(r"-(\d+)$", r"\1", it) in self.steps:
                return self.steps[re.sub(r"-(\d+)$", r"\1", it)]
        return None


def path_in(names, head, fields):
    out, i = [], 0
    while i < len(fields) and fields[i] == "before":
        i += 1
    if i == len(fields):
        return head
    dropped = i
    f = fields[i]
    step = names.step(f)
    if f in KEEP or f in ("pre", "fits"):
        f = {"pre": "requires", "fits": "ranges"}.get(f, f)
        out = [f] + list(fields[i + 1:])
        if f == "args" and len(out) > 1:
            out[1] = names.args.get(out[1], out[1])
    elif step:
        rest = list(fields[i + 1:])
        if rest and rest[0] in ("taken", "left"):
            rest[0] = {"taken": "true", "left": "false"}[rest[0]]
        if rest and rest[0] == "inv":
            rest[0] = "invariant"
        facts = names.facts.get(step, {})
        if rest and rest[0] in facts:
            rest[0] = facts[rest[0]]
        out = [step] + rest
    else:
        out = list(fields[i:])
        if not dropped:
            return None
    return head + "".join("." + f for f in out)


def turn_paths(names, text):
    def put(m):
        fields = m.group(2)[1:].split(".")
        return path_in(names, m.group(1), fields) or m.group(0)

    text = PATH.sub(put, text)
    for v in set(re.findall(r"\blet (\w+) = [\w.'-]+\.args in", text)):
        text = re.sub(r"(?<![\w.'-])" + v + r"\.(t\d+)\b", lambda m: v + "." + names.args.get(m.group(1), m.group(1)), text)
    return text


def placed(names, goal, typed, text):
    """Writes the way back to the place that a helper takes."""
    for v in set(re.findall(r"\blet (\w+) = \w+(?:\.before)* in", text)):
        places = {p for n, p in typed.items() if re.search(r"(?<![\w.'-])" + re.escape(n) + r" " + v + r"(?![\w'-])", text)}
        if len(places) == 1:
            text = re.sub(r"\blet " + v + r" = \w+(?:\.before)* in", f"let {v} = (goal.at.{goal} c).{places.pop()} in", text)
    for name, place in typed.items():
        text = re.sub(
            r"(?<![\w.'-])" + re.escape(name) + r" (?:c(?:\.before)*|\(c(?:\.before)*\))(?![\w.'-])",
            lambda m: f"{name} (goal.at.{goal} c).{place}",
            text,
        )
    return text


def turn_body(names, text):
    text = turn_paths(names, text)
    text = re.sub(r"not-true _ ([\w.'-]+)\.true-raw", r"\1.true", text)
    text = re.sub(r"not-false _ ([\w.'-]+)\.false-raw", r"\1.false", text)
    text = re.sub(r"(\btie\.[A-Z][^\s()]*)((?:\s+(?:invariant|decreases)-[\w-]+)+)", r"\1", text)
    text = re.sub(r"\btie\.Need-([^\s()]+)", lambda m: "goal." + (names.goal(m.group(1)) or "LOST-" + m.group(1)), text)
    text = re.sub(r"\btie\.([A-Z][^\s()]*)", lambda m: "goal." + names.places.get(norm(m.group(1)), "LOST-" + m.group(1)), text)
    return text


def substitute(body, to):
    """Puts the new words for the parameters of an invariant, but for names that the text binds again."""
    tokens = re.findall(r"[^\s(){}\[\];,.@\"«»`:λ∥⌜⌝]+|\s+|.", body)
    out, stack, hidden = [], [], set()
    i = 0
    while i < len(tokens):
        t = tokens[i]
        if t in "([{" and len(t) == 1:
            stack.append(set(hidden))
            # a telescope: names, then ':', in brackets that an arrow or × follows
            j, names = i + 1, []
            while j < len(tokens) and (tokens[j].isspace() or TOKEN.fullmatch(tokens[j])):
                if TOKEN.fullmatch(tokens[j]):
                    names.append(tokens[j])
                j += 1
            out.append(t)
            if j < len(tokens) and tokens[j] == ":" and names:
                for s in names:
                    hidden.add(s)
                stack[-1] |= set(names)
        elif t in ")]}" and len(t) == 1:
            hidden = stack.pop() if stack else hidden
            out.append(t)
        elif t == "λ":
            out.append(t)
            i += 1
            while i < len(tokens) and tokens[i] != ".":
                if TOKEN.fullmatch(tokens[i]):
                    hidden.add(tokens[i])
                out.append(tokens[i])
                i += 1
            out.append(tokens[i])
        elif TOKEN.fullmatch(t) and t in to and t not in hidden and (not out or out[-1] != "."):
            out.append(to[t])
        else:
            out.append(t)
        i += 1
    return "".join(out)


def is_for(source_names, loop):
    return loop in source_names


def turn(crate, folder, names, fors):
    path = os.path.join(folder, "Proof.antt")
    with open(path, encoding="utf-8") as f:
        text = f.read()
    head, decls = blocks(text)
    base = "Rattle." + crate + ".proofs." + os.path.relpath(folder, os.path.join("crates", crate, "proofs")).replace("/", ".")
    title = [l for l in head if l.startswith("--")]
    uses = [l for l in head if l.startswith(("use ", "pub use ")) and not l.startswith(("use " + base + ".Tie", "use " + base + ".Statement"))]
    invariants, answers, helpers = [], [], []
    typed = {}
    for _, lines in decls:
        joined = "\n".join(lines)
        m = re.match(r"module _ \(\w+ : (?:At )?tie\.([^\s()]+)", joined)
        if m and norm(m.group(1)) in names.places:
            for n in re.findall(r"(?m)^  (?:abbrev )?(\S+) :", joined):
                typed[n] = names.places[norm(m.group(1))]
        m = re.match(r"(?:abbrev )?(\S+) : tie\.([A-Z][^\s()]*) →", joined) or re.match(r"(?:abbrev )?(\S+) : \(\w+ : tie\.([A-Z][^\s()]*)\)", joined)
        if m and norm(m.group(2)) in names.places:
            typed[m.group(1)] = names.places[norm(m.group(2))]
    for comments, lines in decls:
        joined = "\n".join(lines)
        name = name_of(lines[0])
        m = re.match(r"\s*(?:abbrev )?\S+\s*:\s+(?:tie\.|At tie\.)(\S+)", joined)
        if name.endswith(("-spec", "_spec")) or "tie.close" in joined:
            continue
        if re.match(r"abbrev At :", joined):
            continue
        if m and re.match(r"(invariant|decreases)-", m.group(1)):
            kind, loop = m.group(1).split("-", 1)
            if norm(loop) not in names.loops:
                invariants.append("\n".join(comments + ["-- LOST " + lines[0]] + lines[1:]))
                continue
            new, vars_, changed = names.loops[norm(loop)]
            if kind == "decreases" and re.sub(r"^loop-", "", new) in fors:
                continue
            at = next(k for k, l in enumerate(lines) if re.match(re.escape(name) + r"\b.* =", l) or l.startswith(name + " ") and ":" not in l.split("=")[0])
            rest = "\n".join(lines[at:])
            params, body = rest.split("=", 1)
            params = params.split()[1:]
            first = [(v, ("l.initial." if ch else "l.") + v) for v, ch in zip(vars_, changed)]
            order = [b for _, b in first] + ["l." + v for v, ch in zip(vars_, changed) if ch]
            to = dict(zip(params, order))
            note = [] if len(params) == len(order) else [f"-- LOOK {params} {order}"]
            body = substitute(body, to)
            unfold = [l for l in lines[1:at] if l.startswith("unfolding")]
            invariants.append("\n".join(comments + note + [f"abbrev pub {kind}-{new} : goal.{kind}-{new}"] + unfold + [f"{kind}-{new} l ={body}"]))
            continue
        if m and m.group(1).startswith("Need-"):
            new = names.goal(m.group(1)[5:])
            at = next(k for k, l in enumerate(lines) if k and l.startswith(name + " "))
            rest = "\n".join(lines[at:])
            params, body = rest.split("=", 1)
            params = [p for p in params.split()[1:] if p != "κs"]
            unfold = [l for l in lines[1:at] if l.startswith("unfolding")]
            if re.fullmatch(r"\s*(search rules|omega arith|refl|tt|\(refl, refl\)|\(omega arith, refl\))\s*", body):
                continue
            if new is None:
                print(f"{folder}: no goal for {name}: {' '.join(lines)[:200]}")
                continue
            body = turn_body(names, placed(names, new, typed, body))
            if re.search(r"\bκs\b", body):
                body = re.sub(r" κs\b", "", body)
            new_params = " ".join(params)
            answers.append("\n".join(comments + [f"pub {new} : goal.{new}"] + unfold + [f"{new} {new_params} ={body}"]))
            continue
        in_invariants = not re.search(r"\bAt tie\.|\btie\.(Need|[A-Z])", joined)
        helpers.append((name, turn_body(names, "\n".join(comments + lines)), in_invariants))
    inv_text, ans_text = "\n\n".join(invariants), "\n\n".join(answers)
    # a helper that an invariant needs goes with the invariants, and the answers import it
    needed, more = [], True
    pool = [h for h in helpers]
    while more:
        more = False
        said = inv_text + "\n".join(h[1] for h in needed)
        for h in pool:
            if h not in needed and h[2] and re.search(r"(?<![\w'-])" + re.escape(h[0]) + r"(?![\w'-])", said):
                needed.append(h)
                more = True
    order = [h for h in helpers if h in needed]
    rest = [h for h in helpers if h not in needed]

    def public(text):
        lines = text.split("\n")
        for k, l in enumerate(lines):
            if l and not l.startswith("--"):
                if l.startswith("record ") or l.startswith("data "):
                    lines[k] = "pub " + l
                    for j in range(k + 1, len(lines)):
                        lines[j] = re.sub(r"^  (\w)", r"  pub \1", lines[j]) if l.startswith("record ") else lines[j]
                elif l.startswith("abbrev ") and not l.startswith("abbrev pub"):
                    lines[k] = "abbrev pub " + l[7:]
                elif not l.startswith(("pub ", "abbrev", "unfoldable", "module")):
                    lines[k] = "pub " + l
                break
        return "\n".join(lines)

    os.remove(path)
    made = []
    if invariants:
        body = "\n\n".join([public(h[1]) for h in order] + invariants)
        with open(os.path.join(folder, "Invariants.antt"), "w", encoding="utf-8") as f:
            f.write("\n".join(used(uses, body) + ["use " + base + ".Given as goal", "", body, ""]))
        made.append("Invariants")
    if answers:
        mine = rest if invariants else order + rest
        body = "\n\n".join([h[1] for h in mine] + answers)
        more = []
        cited = [h[0] for h in order if re.search(r"(?<![\w'-])" + re.escape(h[0]) + r"(?![\w'-])", body)] if invariants else []
        if cited:
            more = ["use " + base + ".Invariants.{" + ", ".join(cited) + "}"]
        with open(os.path.join(folder, "Answers.antt"), "w", encoding="utf-8") as f:
            back = sorted(p for p in set(typed.values()) if re.search(r" c\)\." + re.escape(p) + r"(?![\w-])", body))
            more += ["use " + base + ".Goals.{" + ", ".join(back) + "}"] if back else []
            f.write("\n".join(title[:1] + used(uses, body) + more + ["use " + base + ".Goals as goal", "", body, ""]))
        made.append("Answers")
    if not made:
        os.rmdir(folder)
    lost = (inv_text + ans_text + "".join(h[1] for h in helpers)).count("LOST")
    print(f"{folder}: {' '.join(made) or 'no file'}{f', {lost} lost' if lost else ''}")


def used(uses, body):
    words = set(TOKEN.findall(body)) | {t + "◌" for t in ()}
    flat = set()
    for w in TOKEN.findall(body):
        flat.add(w)
    out = []
    for line in uses:
        m = re.match(r"((?:pub )?use [^{]*)\{(.*)\}$", line)
        if not m:
            alias = line.split(" as ")
            if len(alias) == 2 and not re.search(r"(?<![\w-])" + re.escape(alias[1].strip()) + r"\.", body):
                continue
            out.append(line)
            continue
        kept = []
        for n in [n.strip() for n in m.group(2).split(",")]:
            core = n.split(" as ")[-1].replace("◌", "")
            if n == "[]":
                ok = "[]" in body
            elif "◌" in n and n != "◌":
                ok = all(part in body for part in n.split("◌") if part)
            else:
                ok = core in flat
            if ok:
                kept.append(n)
        if kept:
            out.append(m.group(1) + "{" + ", ".join(kept) + "}")
    return out


def main(argv):
    crate, said = argv
    with open(said, encoding="utf-8") as f:
        table = json.load(f)
    src = ""
    for folder, _, names in os.walk(os.path.join("crates", crate, "src")):
        for n in names:
            with open(os.path.join(folder, n), encoding="utf-8") as f:
                src += f.read()
    fors = set(re.findall(r"\bfor (?:&?\(?)*(?:mut )?(\w+)", src))
    top = os.path.join("crates", crate, "proofs")
    for folder, _, names in sorted(os.walk(top)):
        if "Proof.antt" not in names:
            continue
        with open(os.path.join(folder, "Proof.antt"), encoding="utf-8") as f:
            if "tie.close" not in f.read():
                print(folder + ": no tie")
                continue
        key = f"Rattle-{crate}-proofs." + os.path.relpath(folder, top).replace("/", ".") + ".Lts"
        if key not in table:
            print(folder + ": no names")
            continue
        try:
            turn(crate, folder, Names(table[key]), fors)
        except Exception as e:  # noqa: BLE001
            print(f"{folder}: not turned: {e!r}")


if __name__ == "__main__":
    main(sys.argv[1:])
