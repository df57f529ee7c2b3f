#!/usr/bin/env python3
"""Writes the repository's own definitions, lemmas and fields in snake case: usage: tools/snake.py COMMIT, once, at the top, behind port.py; COMMIT is the one on which port.py ran.

Own names are those that a file below specs/ or proofs/ declares. A name of a type keeps its capital. Where two names would be one, the lemma
gets `_lem`. A name that a file takes from a library stays in that file, as do names that Rattle makes, and those in comments but in backticks."""

import collections
import glob
import re
import subprocess
import sys
import tempfile

NAME = r"[^\s(){}.;,@\"«»\[\]\\`:⌜⌝]+"
TOKEN = re.compile(r"--[^\n]*|\"(?:[^\"\\]|\\.)*\"|" + NAME)
DECLARED = re.compile(r"^( *)(?:(abbrev|unfoldable) )?(?:pub )?((?:data|record) )?(" + NAME + r")((?: +[({][^\n]*[)}])?) :(?: ([^\n]*))?$", re.M)
USED = re.compile(r"^(?:ghost )?use ([^\s{]+)\.\{([^}]*)\}", re.M)
# Words of antt, of a clause and of a tactic.
TAKEN = set("first_of search simp grind omega assumption cc hlevel rw let in elim use pub open record data abbrev unfoldable unfolding module result absurd tt is end at".split())

# Names that fall together with another, or with a tactic, and are no lemmas.
CHOSEN = {"policy-prints": "prints_policy", "policy-refused": "refuses_policy", "message-fault": "faulty_message", "first_of": "head_of"}


def files(*patterns):
    return sorted(f for p in patterns for f in glob.glob(p, recursive=True) if "/out/" not in f)


def read(path):
    with open(path, encoding="utf-8") as it:
        return it.read()


def snake(name):
    name = re.sub(r"(?<=[a-z0-9])([A-Z]+)(?![a-z])", lambda m: "_" + m[1].lower(), name)
    name = re.sub(r"(?<=[a-z0-9])([A-Z])", lambda m: "_" + m[1].lower(), name)
    return name.replace("-", "_")


def laws(top=""):
    return files(top + "crates/*/specs/**/*.antt", top + "crates/*/proofs/**/*.antt")


def own(top=""):
    """Each name that a file declares, with how often as a definition, and the names of crates."""
    found, fields, definitions = collections.Counter(), set(), set()
    for f in laws(top):
        for m in DECLARED.finditer(read(f)):
            name = m[4]
            if name.startswith("--") or re.match(r"(tie|goal)\.", (m[6] or "").lstrip()):
                continue
            found[name] += 1
            if m[1] and not m[2]:
                fields.add(name)
            if "/specs/" in f or m[2]:
                definitions.add(name)
        for m in re.finditer(r"^ +((?:" + NAME + r" )+" + NAME + r") : [A-Z]\w*$", read(f), re.M):
            for name in m[1].split():
                found[name] += 1
                fields.add(name)
                definitions.add(name)
    return found, fields, definitions


def mapping():
    found, fields, definitions = own()
    plain = {n for n in found if snake(n) == n}
    turned = {n: snake(n) for n in found if not n[0].isupper() and re.fullmatch(r"[a-z][A-Za-z0-9'-]*[A-Za-z0-9']", n) and snake(n) != n}
    by_new = collections.defaultdict(list)
    for n in turned:
        by_new[turned[n]].append(n)
    for new, olds in sorted(by_new.items()):
        if new in plain:
            olds.append(new)
        olds.sort(key=lambda n: (n not in definitions or n in fields, "-" in n, n))
        for n in olds[0 if new in TAKEN else 1 :]:
            turned[n] = CHOSEN.get(n, new + "_lem")
            print(f"fall together: {n} and {olds[0]}: {n} is {turned[n]}")
    if "first_of" in found:
        turned["first_of"] = CHOSEN["first_of"]
    return turned, fields


def from_library(text, crates):
    names = set()
    for m in USED.finditer(text):
        path = m[1].split(".")
        if not (path[0] == "Rattle" and len(path) > 1 and path[1] in crates):
            names |= {re.split(r" as ", it.strip())[-1] for it in m[2].split(",")}
    return names


def before_port(turned):
    """The names as the pages and the edits still have them, which port.py leaves: from the commit that its own follows."""
    with tempfile.TemporaryDirectory() as d:
        tar = subprocess.Popen(["git", "archive", sys.argv[1], "crates"], stdout=subprocess.PIPE)
        subprocess.run(["tar", "-x", "-C", d], stdin=tar.stdout, check=True)
        names = own(d + "/")[0]
    out = {}
    for n in names:
        new = turned.get(n) or turned.get(snake(n), snake(n))
        if new != n and not n[0].isupper() and re.search("[A-Z-]", n) and re.fullmatch(r"[a-z][A-Za-z0-9'-]*[A-Za-z0-9']", n):
            out[n] = new
    return out


def in_backticks(text, turned):
    return re.sub(r"`([^`\n]*)`", lambda m: "`" + re.sub(r"(?<![\w'.-])[a-z][\w'-]*(?![\w'-])", lambda n: turned.get(n[0], n[0]), m[1]) + "`", text)


def turn_antt(path, turned, fields, crates):
    text = read(path)
    kept = from_library(text, crates)
    walk = path.endswith("/Proof.antt")
    at = [0]

    def one(m):
        word = m[0]
        if word.startswith("--"):
            return in_backticks(word, turned)
        if word.startswith('"') or word not in turned or word in kept:
            return word
        before = text[m.start() - 1 : m.start()]
        if re.search(r"(?<![\w.'-])[A-Z]\w*\.$", text[max(0, m.start() - 60) : m.start()]):
            return turned[word]
        if before == "." and (word not in fields or (walk and re.search(r"\bc(?:\.before)*\.[\w-]*$|Need-[\w-]*$|tie\.$|lts\.[\w-]*$|reads?\.$|c\.[\w.-]*\.$", text[max(0, m.start() - 120) : m.start()]) and not re.search(r"\.(ensures|requires|invariant)[\w.-]*\.$", text[max(0, m.start() - 120) : m.start()]))):
            return word
        return turned[word]

    new = TOKEN.sub(one, text)
    if new != text:
        with open(path, "w", encoding="utf-8") as it:
            it.write(new)


def turn_source(path, turned):
    text = read(path)

    def clause(m):
        return re.sub(r"(?<![\w'-])[a-z][\w'-]*(?![\w'-])", lambda n: turned.get(n[0], n[0]), m[0])

    camel = {n: t for n, t in turned.items() if "-" not in n}
    new = re.sub(r"^ghost use [^;]*;", clause, text, flags=re.M)
    new = re.sub(r"\b(?:requires|ensures|ghost)\b\*?[^{}\n]*\{(?:[^{}]|\{[^{}]*\})*\}", clause, new)
    new = re.sub(r"(?<![\w'\"-])[a-z][A-Za-z0-9']*(?![\w'-])", lambda n: camel.get(n[0], n[0]), new)
    new = in_backticks(new, turned)
    if new != text:
        with open(path, "w", encoding="utf-8") as it:
            it.write(new)


def turn_edit(path, turned):
    text = read(path)
    new = re.sub(r"(?<![\w'.-])[a-z][\w'-]*(?![\w'-])", lambda n: turned.get(n[0], n[0]), text)
    if new != text:
        with open(path, "w", encoding="utf-8") as it:
            it.write(new)


def turn_page(path, turned):
    text = read(path)
    new = in_backticks(text, turned)
    if new != text:
        with open(path, "w", encoding="utf-8") as it:
            it.write(new)


def main():
    crates = {f.split("/")[1] for f in glob.glob("crates/*/src")}
    turned, fields = mapping()
    for f in laws():
        turn_antt(f, turned, fields, crates)
    for f in files("crates/*/src/**/*.rt"):
        turn_source(f, {n: t for n, t in turned.items() if re.search("[A-Z-]", n) or n in CHOSEN})
    old = before_port(turned)
    for f in files("crates/*/must-fail/*.edit", "crates/*/tried/*"):
        turn_edit(f, old)
    for f in [f for f in files("*.md", "docs/*.md", "crates/*/*.md") if f != "docs/CHANGES.md"]:
        turn_page(f, old)
    print(f"{len(turned)} names turned")
    return turned


if __name__ == "__main__":
    main()
