#!/usr/bin/env python3
"""Turns each Proof.antt that walks the code by hand into Invariants.antt and Answers.antt.

usage: tools/answers.py NAMES CRATE [FUNCTION..]     NAMES is the names.json that `rt check --generated DIR --old-names` writes in crates/CRATE

An answer that only says `search rules` goes. What it can't turn it prints, and leaves the old text in the new file."""

import json
import os
import re
import sys

NAME = r"[^\s(){}.;,@\"«»\[\]\\`:]+"
GOES = re.compile(r"Rattle\.\S+\.proofs\.\S+\.(Statement|Tie|Lts\S*|Reads|Kinds)(\.\{[^}]*\})?( as .*)?$")


def norm(name):
    name = name.replace("_", "-").lower()
    name = re.sub(r"^overflow-", "", name)
    return re.sub(r"-+", "-", name)


def blocks(text):
    out, cur = [], []
    for line in text.split("\n"):
        if line.strip() == "" and cur and not cur[-1].rstrip().endswith("="):
            out.append("\n".join(cur))
            cur = []
        elif line.strip():
            cur.append(line)
    if cur:
        out.append("\n".join(cur))
    return out


class Function:
    def __init__(self, of, path):
        self.of, self.path = of, path
        self.place = {p[0]: (i, p) for i, p in enumerate(of["places"])}

    def need(self, used, k, total):
        needs = self.of["needs"]
        if total == len(needs):
            return k
        forms = {norm(used), norm(used).replace("slice-bounds", "part")}
        for i, (old, new) in enumerate(needs):
            if norm(old) in forms or norm(new) in forms:
                return i
        return None

    def resolve(self, body, asked, say):
        """The paths of c in the body, by the names of today."""

        def one(m):
            depth = m[1].count(".before")
            rest = [it for it in m[2].split(".") if it]
            rest = rest and [re.sub(r"_lem$", "", rest[0].replace("is_IsWord", "is_word")), *rest[1:]]
            if not rest:
                return m[0]
            if rest[0] in ("args", "requires", "ranges", "well_formed", "well-formed", "lifetimes"):
                return ".".join(["c", rest[0].replace("-", "_"), *rest[1:]])
            at = self.place.get(asked)
            chain = []
            while at:
                chain.append(at)
                parent = at[1][1]
                at = self.place.get(parent) if parent else None
            if depth >= len(chain):
                say(f"no place {m[0]}")
                return m[0]
            i, p = chain[depth]
            step, new = p[2]
            if norm(rest[0]) != norm(step):
                # a step of a place behind, or the place stands twice
                found = [q for q in chain if norm(rest[0]) == norm(q[1][2][0])] or [q for q in chain if norm(rest[0]) == norm(q[1][2][1])]
                if not found:
                    say(f"no step {m[0]} ({step})")
                    return m[0]
                i, p = found[0]
                step, new = p[2]
            tail = [{"type-inv": "type_inv"}.get(it, it) for it in rest[1:]]
            # an arm gives the old parts other names
            for j, q in chain:
                arm = self.of["arms"][j]
                if arm:
                    for entry in arm[2]:
                        if len(entry) == 3 and entry[1] == step:
                            want = entry[2]
                            if want and tail[: len(want)] == want:
                                return ".".join(["c", arm[0], entry[0], *tail[len(want) :]])
            for old, label in p[4] or []:
                if tail and tail[0] == old:
                    tail = [label, *tail[1:]]
                    break
            if len(tail) > 1 and tail[0] in ("new", "auto") and p[3] in self.of["params"] and tail[1] in ("0", "1"):
                k = 1
                while k < len(tail) and tail[k] == "1":
                    k += 1
                names = self.of["params"][p[3]]
                if k < len(tail) and tail[k] == "0" and k - 1 < len(names):
                    tail = [tail[0], names[k - 1], *tail[k + 1 :]]
            return ".".join(["c", new, *tail])

        return re.sub(r"(?<![\w.'-])c((?:\.before)*)((?:\.[A-Za-z0-9_κ'+-]+)*)(?![\w'-])", one, body)


def words(text):
    return set(re.findall(NAME, text))


def holes(name):
    return [name] if "◌" not in name else [p for p in name.split("◌") if p]


def uses(lines, text):
    """The use lines with the names that the text has."""
    have, out = words(text), []
    for line in lines:
        m = re.match(r"use (\S+)\.\{([^}]*)\}$", line)
        if not m:
            alias = line.split(" as ")[-1].strip() if " as " in line else line.split(".")[-1]
            if alias in {w.split(".")[0] for w in re.findall(r"[^\s(){};,]+", text)} or alias in have:
                out.append(line)
            continue
        kept = []
        for it in [x.strip() for x in m[2].split(",")]:
            shown = it.split(" as ")[-1]
            parts = holes(shown)
            if shown in have or shown == "[]" and "[]" in text or all(p in have or p in text for p in parts) and "◌" in shown:
                kept.append(it)
        if kept:
            out.append(f"use {m[1]}.{{{', '.join(kept)}}}")
    return out


def turn(names, folder, crate, module):
    path = os.path.join(folder, "Proof.antt")
    with open(path, encoding="utf-8") as it:
        text = it.read()
    key = f"Rattle-{crate}-proofs.{module}.Lts"
    of = names.get(key)
    if of is None:
        found = [k for k in names if k.startswith(key)]
        if len(found) != 1:
            print(f"{folder}: {len(found)} parts, by hand")
            return
        of = names[found[0]]
    said = []
    f = Function(of, folder)
    lines = [l for l in text.split("\n") if l.startswith("use ")]
    body = "\n".join(l for l in text.split("\n") if not l.startswith("use "))
    given, answers, local = [], [], []
    all_blocks = blocks(body)
    needs = [b for b in all_blocks if re.search(r": tie\.Need-", b)]
    total, k = len(needs), 0
    for b in all_blocks:
        plain = "\n".join(l for l in b.split("\n") if not l.startswith("--") or "src/" not in l)
        m = re.search(r"^(?:abbrev )?(?:pub )?(\S+) : (.*)$", plain, re.M)
        if not m:
            if plain.strip():
                local.append(plain)
            continue
        head, kind = m[1], m[2]
        if re.match(r"tie\.(invariant|decreases)-", kind):
            word, old = re.match(r"tie\.(invariant|decreases)-(\S+)", kind).groups()
            loops = of["loops"]
            i = next((j for j, l in enumerate(loops) if norm(l[0][0]) == norm(old) or norm(l[0][1]) == norm(old)), None)
            if i is None:
                said.append(f"no loop {old}")
                local.append(plain)
                continue
            new, names_ = loops[i][0][1], loops[i][1]
            changed = of["changed"][i]
            mm = re.search(r"^" + re.escape(head) + r"((?: [^\s=]\S*)*?) =([\s\S]*)", plain, re.M)
            params = mm[1].split()
            value = mm[2]
            subst = {}
            if len(params) != len(names_) + sum(changed):
                said.append(f"{old}: {len(params)} parameters, {len(names_)} + {sum(changed)} variables")
            rest = [v for v, c in zip(names_, changed) if c]
            for j, q in enumerate(params):
                if j < len(names_):
                    subst[q] = f"l.initial.{names_[j]}" if changed[j] else f"l.{names_[j]}"
                elif j - len(names_) < len(rest):
                    subst[q] = f"l.{rest[j - len(names_)]}"
            value = re.sub(r"(?<![\w.'₀-])" + NAME, lambda w: subst.get(w[0], w[0]), value)
            given.append(f"abbrev pub {word}-{new} : goal.{word}-{new}\n{word}-{new} l ={value}")
            continue
        if re.match(r"tie\.Need-", kind):
            used = re.match(r"tie\.Need-(\S+)", kind)[1]
            i = f.need(used, k, total)
            k += 1
            if i is None and used.startswith("slice-aggregate"):
                continue
            if i is None:
                said.append(f"no goal {used}")
                local.append("-- " + plain.replace("\n", "\n-- "))
                continue
            new, asked = of["needs"][i][1], of["asked_at"][i][0]
            mm = re.search(r"^" + re.escape(head) + r"((?: [^\s=]\S*)*?) =([\s\S]*)", plain[m.end() :], re.M)
            if not mm:
                said.append(f"no body of {used}")
                continue
            params, value = mm[1].split(), mm[2]
            if value.strip() in ("search rules",):
                continue
            unfolding = re.search(r"^unfolding .*$", plain, re.M)
            value = f.resolve(value, asked, said.append)
            value = re.sub(r"\(?\bnot-(true|false) _ (c\.[^\s().]+)\.\1-raw\)?", lambda q: q[0].count("(") * "(" + q[2] + "." + q[1] + q[0].count(")") * ")", value)
            value = re.sub(r"\((c\.[^\s()]+)\)", r"\1", value)
            if "κs" in value:
                said.append(f"{new} uses κs")
            answers.append((new, f"pub {new} : goal.{new}\n" + (unfolding[0] + "\n" if unfolding else "") + f"{new} {' '.join(q for q in params if q != 'κs')} ={value}"))
            continue
        if "statement M" in kind:
            continue
        local.append(plain)
    keep = [l for l in lines if not GOES.match(l[4:])]
    crate_path = f"Rattle.{crate}.proofs.{module}"
    if given:
        t = "\n\n".join(given)
        with open(os.path.join(folder, "Invariants.antt"), "w", encoding="utf-8") as it:
            it.write("\n".join([*uses(keep, t), f"use {crate_path}.Given as goal"]) + "\n\n" + t + "\n")
    if answers or local:
        t = "\n\n".join([*local, *[a for _, a in answers]])
        more = []
        with open(os.path.join(folder, "Answers.antt"), "w", encoding="utf-8") as it:
            it.write("\n".join([*uses(keep, t), f"use {crate_path}.Goals as goal", *more]) + "\n\n" + t + "\n")
    os.remove(path)
    for s in said:
        print(f"{module}: {s}")


def main():
    with open(sys.argv[1], encoding="utf-8") as it:
        names = json.load(it)
    crate, only = sys.argv[2], sys.argv[3:]
    top = os.path.join("crates", crate, "proofs")
    for folder, _, files in sorted(os.walk(top)):
        module = os.path.relpath(folder, top).replace("/", ".")
        if "Proof.antt" in files and (not only or module in only):
            turn(names, folder, crate, module)


main()
