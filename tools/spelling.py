#!/usr/bin/env python3
"""Brings the repository's own names to the kit's spelling: a definition, a lemma or a record's field of specs/ and proofs/ is in snake
case (`isLive` is `is_live`, `write-twice-same` is `write_twice_same`), and a fact is spelled as a type (`is_number` is `IsNumber`).

Run it once, at the top, after the kit's port.py. Functions of src/, exported C names, strings, inputs and outputs keep their names: in a
.rt file only clauses, `ghost` lines and comments are read. Names of a library stay in each file that imports them. What a checker makes
of a function (`Need-..`, `returns-2`) is no name of the repository's, and stays. It refuses to write where two names would fall together.
"""
import collections
import glob
import re
import sys

# Names that are no mere change of spelling: a fact is spelled as a type, and what was named after `getD` follows it to `get_or`.
OWN = {
    "is_number": "IsNumber",
    "at_most": "AtMost",
    "getD-behind": "get_or_behind",
    "getD-pad": "get_or_pad",
    "getD-tab": "get_or_tab",
    "getD-zeros": "get_or_zeros",
}

WORD = r"[^\s(){}\[\]:;,.\"`'|@«»λ∵$!?#&]+"
DECLARED = re.compile(r"^( *)(?:(?:pub|abbrev|unfoldable) )*(?:(?:record|data|ruleset) )?([^\s(){}:;,.]+)(?: [^:]*?| \(.*?| \{.*?)? : ")
SEVERAL = re.compile(r"^ *(?:pub )?((?:[a-z][^\s(){}:;,.]* )+)[a-z][^\s(){}:;,.]* : ")


def snake(name):
    s = re.sub(r"([a-z0-9])([A-Z])", lambda m: m.group(1) + "_" + m.group(2).lower(), name)
    return s.replace("-", "_")


def sources():
    return sorted(glob.glob("crates/*/specs/*.antt") + glob.glob("crates/*/proofs/*.antt"))


def own_crates():
    return {f.split("/")[1] for f in glob.glob("crates/*/")}


def declared():
    names = collections.defaultdict(list)
    for f in sources():
        for i, line in enumerate(open(f), 1):
            if line.lstrip().startswith("--") or re.match(r"\s*(pub )?use\b|\s*(let|in|elim|module)\b", line):
                continue
            m = DECLARED.match(line)
            if m and re.match(r"[a-z]", m.group(2)):
                names[m.group(2)].append("%s:%d" % (f, i))
    return names


def imported(text, crates):
    """The names that a file takes from a library."""
    taken = set()
    for m in re.finditer(r"^\s*(?:pub )?(?:ghost )?use ([^\s{]+?)(?:\.\{([^}]*)\}|\s+as \S+)?;?$", text, re.M):
        path, items = m.group(1), m.group(2)
        parts = path.split(".")
        if parts[0] == "Rattle" and len(parts) > 1 and parts[1] in crates:
            continue
        for item in (items or "").split(","):
            for w in item.split(" as "):
                taken.add(w.strip())
        if not items:
            taken.add(parts[-1])
    return taken


def renamed(text, table, crates, keep=()):
    skip = imported(text, crates) | set(keep)
    token = re.compile(r"(?<![^\s(){}\[\]:;,.\"`'|@«»λ])(" + r"[a-z][^\s(){}\[\]:;,.\"`|@«»λ]*" + r")")

    def one(m):
        w = m.group(1)
        core = w.rstrip("'")
        if w in table and w not in skip:
            return table[w]
        if core in table and core not in skip:
            return table[core] + w[len(core):]
        return w

    return token.sub(one, text)


def clauses(text):
    """The parts of a .rt file that speak antt: ghost lines, clauses, comments. Yields (start, end)."""
    i, n = 0, len(text)
    start_clause = re.compile(r"^[ \t]*(?:ghost use [^;]*;|(?:requires|ensures|ghost)\b[^{;\n]*\{)|//[^\n]*", re.M)
    while True:
        m = start_clause.search(text, i)
        if not m:
            return
        if m.group(0).rstrip().endswith("{") and not m.group(0).startswith("//"):
            depth, j = 1, m.end()
            while depth and j < n:
                depth += {"{": 1, "}": -1}.get(text[j], 0)
                j += 1
            yield m.start(), j
            i = j
        else:
            yield m.start(), m.end()
            i = m.end()


def renamed_rt(text, table, crates):
    out, at = [], 0
    skip = imported(text, crates)
    for a, b in clauses(text):
        out.append(text[at:a])
        out.append(renamed(text[a:b], table, crates, skip))
        at = b
    out.append(text[at:])
    return "".join(out)


def rt_words(text):
    """The parameters, fields and locals of a .rt file: a clause that cites a definition of such a name would read the value."""
    out, at = [], 0
    for a, b in clauses(text):
        out.append(text[at:a])
        at = b
    out.append(text[at:])
    code = "".join(out)
    return set(re.findall(r"\b([a-z_]\w*)\s*:(?!:)", code)) | set(re.findall(r"\blet (?:mut )?([a-z_]\w*)", code))


def main():
    crates, names = own_crates(), declared()
    table = {}
    for n in names:
        new = OWN.get(n, snake(n))
        if new != n:
            table[n] = new
    bad = 0
    back = collections.defaultdict(list)
    for n in names:
        back[table.get(n, n)].append(n)
    # Where a lemma's name falls together with a definition's, it is the lemma that gets `_lem`: the definition is the one in camel
    # case, or the one of specs/.
    for new, olds in sorted(back.items()):
        if len(olds) == 2:
            first = sorted(olds, key=lambda o: (not re.search("[A-Z]", o), "/specs/" not in names[o][0], o))
            table[first[0]] = new
            table[first[1]] = new + "_lem"
            if first[0] == new:
                del table[new]
    back = collections.defaultdict(list)
    for n in names:
        back[table.get(n, n)].append(n)
    for new, olds in sorted(back.items()):
        if len(olds) > 1:
            print("fall together: %s: %s" % (new, ", ".join("%s (%s)" % (o, names[o][0]) for o in olds)))
            bad += 1
    files = sorted(glob.glob("crates/*/specs/*.antt") + glob.glob("crates/*/proofs/**/*.antt", recursive=True))
    texts = {}
    for f in files:
        t = open(f).read()
        skip = imported(t, crates)
        new = renamed(t, table, crates)
        cited = lambda o: re.search(r"(?<![\w-])" + re.escape(o) + r"(?![\w-])", t)
        clash = sorted({table[o] for o in table if table[o] in skip and o not in skip and cited(o)})
        if clash:
            print("%s: taken by a library: %s" % (f, ", ".join(clash)))
            bad += 1
        texts[f] = new
    for f in sorted(glob.glob("crates/*/src/*.rt")):
        t = open(f).read()
        new = renamed_rt(t, table, crates)
        words = rt_words(new)
        used = set()
        for m in re.finditer(r"^ghost use [^;{]*\{([^}]*)\};", new, re.M):
            used |= {w.strip() for w in m.group(1).split(",")}
        clash = sorted(w for w in used & words if w in set(table.values()))
        if clash:
            print("%s: a word of the source: %s" % (f, ", ".join(clash)))
            bad += 1
        texts[f] = new
    for f in sorted(glob.glob("crates/*/must-fail/*.edit")):
        t = open(f).read()
        texts[f] = "".join(renamed(line, table, crates) if re.match(r"old:|new:|#", line) else line for line in t.splitlines(True))
    # In the pages only what stands between back-ticks.
    for f in sorted(glob.glob("docs/**/*.md", recursive=True) + ["README.md", "CONTRIBUTING.md", "oracle/README.md"]):
        if f in ("docs/PORT.md", "docs/PORT-OTHER.md"):
            continue
        t = open(f).read()
        texts[f] = re.sub(r"`[^`\n]*`", lambda m: renamed(m.group(0), table, crates), t)
    if "--table" in sys.argv:
        for o in sorted(table):
            print("%s %s" % (o, table[o]))
        return
    if bad and "--force" not in sys.argv:
        print("%d clashes; nothing is written" % bad)
        sys.exit(1)
    changed = 0
    for f, t in texts.items():
        if open(f).read() != t:
            open(f, "w").write(t)
            changed += 1
    print("%d names, %d files" % (len(table), changed))


if __name__ == "__main__":
    main()
