#!/usr/bin/env python3
"""Counts the places of docs/DESIGN-PASS.md in src/: `tools/places.py [-v] [COMMIT]`, of the tree as it stands where no commit is named; -v lists them."""
import re
import subprocess
import sys
from pathlib import Path

ROOT = Path(__file__).resolve().parent.parent
EXPORTS = ("lapurmihi", "lapurmihi_pair", "lapurmihi_cuts")


def sources(commit):
    """Each crate's source files as (crate, path, text)."""
    if commit:
        git = lambda *words: subprocess.run(("git", "-C", str(ROOT), *words), capture_output=True, text=True, check=True).stdout
        for path in git("ls-tree", "-r", "--name-only", commit, "crates").splitlines():
            if re.fullmatch(r"crates/\w+/src/.*\.rt", path):
                yield path.split("/")[1], path, git("show", f"{commit}:{path}")
    else:
        for path in sorted(ROOT.glob("crates/*/src/**/*.rt")):
            yield path.relative_to(ROOT).parts[1], str(path.relative_to(ROOT)), path.read_text()


def functions(text):
    """Each function as (name, parameters, result, clauses)."""
    for found in re.finditer(r"\bfn (\w+)(?:<[^(]*>)?\((.*?)\)(?: -> ([^\n{]+?))?\s*((?:\n\s+(?:requires|ensures)[^\n]*)*)\s*\n?\s*\{\n", text, re.S):
        name, params, result, clauses = found.groups()
        yield name, " ".join(params.split()), (result or "").strip(), clauses or ""


def places(crate, path, text):
    """The places of a file as (point, what)."""
    for struct, body in re.findall(r"struct (\w+)[^{;]*\{(.*?)\n\}", text, re.S):
        if re.search(r"^\s+(pub )?(refusal: u32|verdict: \w+|failed: Option\S+|whole: bool),", body, re.M):
            yield "1 flagged struct", struct
    for const in re.findall(r"pub const (\w+): u32 = \d+;", text) if path.endswith(("refusal.rt", "fault.rt")) else []:
        yield "1 number for a kind or refusal", const
    families = {}
    for name, params, result, clauses in functions(text):
        promises = "".join(re.findall(r"ensures[^\n]*", clauses))
        if crate not in EXPORTS:
            if result == "u32" and re.search(r"first_failing|refusal|short_of", promises):
                yield "1 function that answers a number for a refusal", name
            if result in ("Verdict", "Start", "Fixed", "Last", "Decision", "Needed", "Closed", "Part", "ByteCount", "Input", "Piece", "PairNeeded", "PairClosed", "PairPart"):
                yield "1 function that answers a flagged struct", f"{name} -> {result}"
            if re.search(r"first_not|carrier|≡ holder ", promises) and result in ("usize", "u64"):
                yield "1 function with a number for none", name
        families.setdefault(re.sub(r"_?[ui]?(32|64|4|8)(?=\D*$)", "", name), []).append(name)
        if crate not in EXPORTS:
            if re.search(r"lists\d?: \S+.*image\d?: \S+.*table\d?: ", params):
                yield "5 function with a record, its lists, image and table", name
            if re.search(r"sizes: &('a )?\[u64\].*blocksize: u32|blocksize: u32.*sizes: &('a )?\[u64\]", params):
                yield "5 function with sizes, their number and blocksize", name
            if re.search(r"first: &\[u64\], n: usize, second", params):
                yield "5 function with the ranks of two files and their numbers", name
            for fact, form in (("a list's length is LISTS", r"length lists\d?\.\w+ ≡ all_lists"), ("Sound", r"\bSound "), ("blocksize_rule", r"blocksize_rule \(pos"), ("at most max_tasks", r"≤ max_tasks")):
                if re.search(form, "".join(re.findall(r"requires[^\n]*", clauses))):
                    yield f"5 contract that asks: {fact}", name
            if re.search(r"\w+: &(mut |'a )*\[\w+\](, at: usize)?, (n|cells|m|size|count): usize", params):
                yield "6 slice with its length beside it", name
    for members in families.values():
        if len(members) > 1:
            yield "2 functions that differ in a width", ", ".join(members)
    for loop in re.findall(r"^\s+while (.*) \{$", text, re.M):
        yield "3 loop that counts by hand", loop
    for name in re.findall(r"^(?:pub )?struct ((?:Number|Integer)\d)", text, re.M):
        yield "2 types that differ in a width", name


def main():
    words = [word for word in sys.argv[1:] if word != "-v"]
    found = {}
    for crate, path, text in sources(words[0] if words else None):
        for point, what in places(crate, path, text):
            found.setdefault(point, []).append(f"{crate}: {what}")
    for point in sorted(found):
        print(f"{len(found[point]):4} {point}")
        if "-v" in sys.argv:
            print("".join(f"         {what}\n" for what in found[point]), end="")


main()
