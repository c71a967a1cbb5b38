#!/usr/bin/env python3
"""Checks that the pages are true as far as a program can tell: how wide lines are, that links lead somewhere, that every crate, edit,
theorem, function and definition that a page names exists, and that the drawing of the layers is that of crates.txt. Prints each
fault with its place, and ends with status 1 if there is one. In the repository's root: docs/check.py"""

import re
import subprocess
import sys
from pathlib import Path

ROOT = Path(__file__).resolve().parent.parent
PAGE, CODE = 120, 140
# Pages that speak of what was: names in them may have gone since.
PAST = ("docs/notes/",)
# The table of old names stands behind this heading.
OLD_NAMES = "## Names of crates"
# Names in backticks that belong to others: Rust's and regolith's, the shell's, and words of the command program.
OTHERS = set("from_utf8 std cargo rustc python3 gcc std::str std::path Path::parent pool.rs sah.rs checksum.rs adopt_slots".split())
# Words that may stand behind "crate" without being a crate's name.
PLAIN = set("a and as at by can for has have in is it its may means needs of only or that the to under which with".split())

DEFINED = r"^\s*(?:abbrev |unfoldable )?(?:pub )?(?:record )?([\w']+(?:-[\w']+)*) (?::|\()"
DECLARED = r"\b(?:fn|struct|enum|const) (\w+)"


def tracked():
    """The repository's files: what git lists, or, in a copy without git, all but what is built."""
    try:
        out = subprocess.run(["git", "ls-files"], cwd=ROOT, capture_output=True, text=True, check=True).stdout.splitlines()
    except (OSError, subprocess.CalledProcessError):
        found = [path.relative_to(ROOT) for path in sorted(ROOT.rglob("*"))]
        out = [str(path) for path in found if not {"target", "out", ".git"} & set(path.parts)]
    return [name for name in out if (ROOT / name).is_file()]


def words(text):
    """Every name in a text: letters, digits, `_`, `'` and hyphens inside; and its pieces, where hyphens join them."""
    return set(re.findall(r"[\w']+(?:-[\w']+)*", text)) | set(re.findall(r"\w+", text))


class Names:
    def __init__(self, files):
        self.files = set(files)
        self.parents = {str(p) for name in files for p in Path(name).parents}
        self.crates = set(re.findall(r"^(\w+)(?: staticlib)?:", (ROOT / "crates.txt").read_text(), re.M))
        self.listed = set()
        self.edits, self.defined, self.declared, self.all, self.functions = set(), set(), set(self.crates), set(), {}
        for name in files:
            parts = name.split("/")
            if name.endswith(".edit"):
                self.edits.add(f"{parts[1]}/{parts[-1][:-5]}")
            if name.endswith((".antt", ".rt", ".rs", ".py", ".toml", "crates.txt")) or parts[-1] in ("run", "quick", "staticlib"):
                text = (ROOT / name).read_text(encoding="utf-8")
                self.all |= words(text)
                self.all |= {piece for part in parts for piece in (part, part.split(".")[0])}
                if name.endswith(".antt"):
                    self.defined |= set(re.findall(DEFINED, text, re.M))
                if name.endswith(".rt"):
                    self.functions.setdefault(parts[1], set()).update(re.findall(DECLARED, text))
                if name.endswith((".rt", ".rs")):
                    self.declared |= {*re.findall(DECLARED, text), parts[-1].split(".")[0]}

    def unknown(self, name):
        """What is wrong with a name in backticks, or nothing."""
        if name in OTHERS or name in self.files or name.rstrip("/") in self.parents or name.lstrip("./") in self.files:
            return None
        if m := re.fullmatch(r"([a-z0-9_]+)/([a-z0-9-]+)", name):
            if m[1] in self.crates:
                return None if name in self.edits else "no such edit"
        if m := re.fullmatch(r"([a-z0-9_]+)::(\w+)(?:::\w+)?", name):
            if m[1] in self.crates:
                return None if m[2] in self.functions.get(m[1], ()) else "no such function"
        if re.fullmatch(r"[a-z0-9]+(?:-[a-z0-9]+)+", name):
            ok = name in self.defined or any(edit.endswith("/" + name) for edit in self.edits)
            return None if ok else "no such theorem or edit"
        if re.fullmatch(r"[a-z0-9]+(?:_[a-z0-9]+)+", name):
            return None if name in self.defined | self.declared else "no such theorem or function"
        if re.fullmatch(r"[A-Za-z_]\w*", name):
            return None if name in self.all else "no such name"
        return None


def page(name, names, faults):
    text = (ROOT / name).read_text(encoding="utf-8")
    here = Path(name).parent
    fenced, old, listing = False, False, False
    for number, line in enumerate(text.splitlines(), 1):
        def fault(what):
            faults.append(f"{name}:{number}: {what}")

        if line.startswith("## "):
            old = line == OLD_NAMES
        if line.startswith("```"):
            fenced = not fenced
        code = fenced or line.startswith("    ")
        if len(line) > PAGE and not line.startswith("|") and not code:
            fault(f"{len(line)} characters")
        for target in re.findall(r"\]\(([^)#\s]+)", line):
            if not re.match(r"[a-z]+:", target) and not (ROOT / here / target).exists():
                fault(f"dead link {target}")
        for target in re.findall(r"(?<![\w/.`])((?:docs|oracle|crates|\.ci)/[\w./-]+\w)", line):
            if "NAME" not in target and target not in names.files and target not in names.parents:
                fault(f"no such file {target}")
        if old or code or name.startswith(PAST):
            continue
        cells = [cell.strip() for cell in line.split("|")]
        if not line.startswith("|"):
            listing = False
        elif cells[1] == "crate":
            listing = True
        elif listing and not set(cells[1]) <= set("-"):
            for crate in cells[1].split(", "):
                names.listed.add(crate)
                if crate not in names.crates:
                    fault(f"no such crate {crate}")
        for crate in re.findall(r"\bcrate ([a-z][a-z0-9_]*)\b", line):
            if crate not in names.crates and crate not in PLAIN:
                fault(f"no such crate {crate}")
        for quoted in re.findall(r"`([^`]+)`", line):
            what = names.unknown(quoted)
            if what:
                fault(f"{what}: {quoted}")


def main():
    files = tracked()
    names, faults = Names(files), []
    for name in files:
        if name.endswith(".md"):
            page(name, names, faults)
        if name.endswith((".rt", ".rs", ".py")):
            for number, line in enumerate((ROOT / name).read_text(encoding="utf-8").splitlines(), 1):
                if len(line) > CODE:
                    faults.append(f"{name}:{number}: {len(line)} characters")
    for crate in sorted(names.crates - names.listed):
        faults.append(f"crates.txt: {crate} stands in no page's table of crates")
    drawn = subprocess.run([sys.executable, ROOT / "docs/layers.py"], capture_output=True, text=True, check=True).stdout
    if drawn != (ROOT / "docs/layers.svg").read_text(encoding="utf-8"):
        faults.append("docs/layers.svg: not the drawing of crates.txt; docs/layers.py > docs/layers.svg")
    for fault in faults:
        print(fault)
    print(f"{len([f for f in files if f.endswith('.md')])} pages, {len(faults)} faults")
    return 1 if faults else 0


if __name__ == "__main__":
    sys.exit(main())
