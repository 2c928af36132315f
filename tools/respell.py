#!/usr/bin/env python3
"""Brings the names that this repository defines in specs/ and proofs/ to one spelling: words in snake case, types and facts in
camel case; a dash only joins two names of definitions, as in 'length-stream'. It ran right after port.py, at the commit that
docs/PORT.md names on its second line, and once more a little later; the new names stand in the files since. Run at the top of
the repository.

Names of functions of src/, exported names, strings, inputs and outputs stay. It stops where two names would fall together."""
import collections
import glob
import re
import sys

STD = set("length take drop get_or set append map reverse sum add mul sub mod div max min not and or xor eqb leb ltb concat replicate cond".split())
RENAMED = {"getD": "get_or"}  # port.py's own spelling of a word of std, inside names of ours
# in these files a lemma has in snake case the name that a definition gets
LEMMAS = {
    "crates/ranges/proofs/Narrowest.antt": "best_of",
    "crates/salvage/proofs/Forms.antt": "held_in",
    "crates/track1/proofs/Laws.antt": "read_one",
    "crates/track2/proofs/Laws.antt": "read_one",
}
TOKEN = re.compile(r"[A-Za-z_₀-₉Α-Ωα-ω][\w₀-₉'-]*")


def antt_files():
    for part in ("specs", "proofs"):
        yield from (f for f in sorted(glob.glob(f"crates/*/{part}/**/*.antt", recursive=True)))


def declared(text):
    """The names that a file declares at its top level: (name, whether it is a field or constructor)."""
    for m in re.finditer(r"^(?:abbrev |unfoldable )*(?:pub )?(?:data |record |ruleset )?([^\s(){}:;]+)(?: +[({][^\n]*?[)}])* *:(?= |$)", text, re.M):
        yield m.group(1), False
    for m in re.finditer(r"^ +(?:pub )?([^\s(){}:;]+(?:, [^\s(){}:;]+)*|[^\s(){}:;]+(?: [^\s(){}:;=]+)*) *:(?= |$)", text, re.M):
        for name in re.split(r"[ ,]+", m.group(1)):
            yield name, True


def is_goal(text, name):
    return re.search(rf"^(?:abbrev )?(?:pub )?{re.escape(name)} : (?:tie\.|goal\.|\{{M : Type 1\}} → statement)", text, re.M)


def snake(word):
    word = RENAMED.get(word, word)
    return re.sub(r"(?<=[a-z0-9'])([A-Z])", lambda m: "_" + m.group(1).lower(), word) if word[:1].islower() else word


def spelled(name, known, member):
    parts = [snake(p) for p in name.split("-")]
    out = parts[0]
    for before, part in zip(parts, parts[1:]):
        out += ("-" if not member and before in known and part in known else "_") + part
    return out


def functions():
    found = set()
    for f in glob.glob("crates/*/src/**/*.rt", recursive=True):
        found |= set(re.findall(r"\bfn (\w+)", open(f, encoding="utf-8").read()))
    return found


def names():
    """Each name that is respelled, with its new one; where two would fall together, the lemma or the field of them gets '_lem'."""
    own, words = {}, set(STD)
    for f in antt_files():
        text = open(f, encoding="utf-8").read()
        for name, member in declared(text):
            if not TOKEN.fullmatch(name) or is_goal(text, name):
                continue
            own[name] = own.get(name, False) or member
            if "/specs/" in f and not member and name[0].islower():
                words.add(snake(name))
    renamed = {n: spelled(n, words, member) for n, member in own.items()}
    taken = collections.Counter(renamed.values())
    renamed = {n: r + "_lem" if taken[r] > 1 and "-" in n else r for n, r in renamed.items()}
    return {n: r for n, r in renamed.items() if n != r}, own


def pieces(text, antt):
    """The text as (kind, piece): 'code', 'string' or 'comment'."""
    mark = r"--(?![^\s])[^\n]*|^--[^\n]*" if antt else r"//[^\n]*"
    at = 0
    for m in re.finditer(rf'({mark})|("(?:[^"\\\n]|\\.)*")', text, re.M):
        yield "code", text[at:m.start()]
        yield ("comment" if m.group(1) is not None else "string"), m.group(0)
        at = m.end()
    yield "code", text[at:]


def foreign(text):
    """The names that a file brings in from the toolchain's libraries."""
    found = set()
    for m in re.finditer(r"^(?:ghost )?use ([\w.]+)\.\{([^}]*)\}", text, re.M):
        if re.match(r"(Rattle\.std|Rattle\.core|lib|native|mathlib|Prim|borrow|denote|logic)\b", m.group(1)):
            found |= {w.split(" as ")[-1].strip() for w in m.group(2).split(",")}
    return found


def turn(code, new, skip, steps=()):
    """The code with its names respelled: not those in skip, and behind a dot not those of steps, which are named after functions."""
    def one(m):
        word, before = m.group(0), code[max(0, m.start() - 4):m.start()]
        if word in skip or word not in new or before == "tie." or (before[-1:] == "." and word.replace("-", "_") in steps):
            return word
        return new[word]

    return TOKEN.sub(one, code)


def ticked(text, new):
    return re.sub(r"`[^`\n]*`", lambda m: turn(m.group(0), new, ()), text)


def respell_antt(text, new, steps=()):
    skip = foreign(text)
    return "".join(turn(p, new, skip, steps) if k == "code" else ticked(p, new) if k == "comment" else p for k, p in pieces(text, True))


def clauses(text):
    """The parts of a .rt file that are antt: ghost use lines, and clauses with their braces."""
    for m in re.finditer(r"^ *ghost use [^;]*;|\b(?:requires|ensures|ghost)\*?(?: \w+:?)? \{", text, re.M):
        end = m.end()
        if m.group(0).endswith("{"):
            depth = 1
            while depth:
                depth += {"{": 1, "}": -1}.get(text[end], 0)
                end += 1
        yield m.start(), end


def respell_rt(text, new):
    skip = foreign(text)
    out, at = "", 0
    for start, end in clauses(text):
        out += "".join(ticked(p, new) if k == "comment" else p for k, p in pieces(text[at:start], False))
        out += turn(text[start:end], new, skip)
        at = end
    return out + "".join(ticked(p, new) if k == "comment" else p for k, p in pieces(text[at:], False))


def respell_edit(text, new):
    lines, antt = [], False
    for line in text.split("\n"):
        if line.startswith("file: "):
            antt = line.endswith(".antt")
        head, body = re.match(r"((?:old: |new: )?)(.*)", line).groups()
        if head and antt:
            body = respell_antt(body, new)
        elif head and re.match(r"ghost use|\s*(requires|ensures)\b|.*⌜", body):
            body = turn(body, new, foreign(body))
        elif not head and not line.startswith("file: "):
            body = ticked(body, new)
        lines.append(head + body)
    return "\n".join(lines)


def fall_together(new):
    """New names that a file uses already for something else."""
    bad = []
    for f in antt_files():
        text = open(f, encoding="utf-8").read()
        code = "".join(p for k, p in pieces(text, True) if k == "code")
        code = re.sub(rf"(?<![\w'.-]){LEMMAS.get(f, '-')}(?![\w'-])", LEMMAS.get(f, "-") + "_lem", code)
        here = set(re.findall(r"(?<![\w'.-])" + TOKEN.pattern, re.sub(r"^use .*|\btie[.][\w-]+", "", code, flags=re.M)))
        bad += [f"{f}: {n} would be {new[n]}, which stands there already" for n in sorted(here) if n in new and new[n] in here]
    return bad


def main():
    new, _ = names()
    bad = fall_together(new)
    if "--plan" in sys.argv or bad:
        print("\n".join(f"{n} {r}" for n, r in sorted(new.items())))
        raise SystemExit("\n".join(bad))
    steps = functions()
    files = [(f, (lambda t, n: respell_antt(t, n, steps)) if f.endswith("/Proof.antt") else respell_antt) for f in antt_files()]
    files += [(f, respell_rt) for f in sorted(glob.glob("crates/*/src/**/*.rt", recursive=True))]
    files += [(f, respell_edit) for f in sorted(glob.glob("crates/*/must-fail/*.edit"))]
    files += [(f, ticked) for f in sorted(glob.glob("docs/**/*.md", recursive=True) + ["README.md", "CONTRIBUTING.md"])]
    for f, how in files:
        text = open(f, encoding="utf-8").read()
        if f in LEMMAS and LEMMAS[f] in new.values():
            text = re.sub(rf"(?<![\w'.-]){LEMMAS[f]}(?![\w'-])", LEMMAS[f] + "_lem", text)
        turned = how(text, new)
        if turned != open(f, encoding="utf-8").read():
            open(f, "w", encoding="utf-8").write(turned)


main()
