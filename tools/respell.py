#!/usr/bin/env python3
"""Spells the repository's own definitions, fields and lemmas in snake case, once, right after the kit's port.py.

usage: python3 tools/respell.py            at the top of the repository

A name that specs/ or proofs/ declare and that begins with a small letter gets underscores: `loadAnswer` becomes `load_answer`, `reads-back`
becomes `reads_back`. Types and modules keep their camel case, functions of src/, exported names, strings, inputs and outputs keep theirs, and so do
the names of goals. Where two names would fall together, the table APART says how they stay apart. Read are .antt and .rt files, must-fail
edits, and what stands in backticks in the documents.
"""
import collections
import glob
import re

NAME = r'[^\s(){}.;,@"«»:|`]+'
DECLARED = re.compile(r"(?m)^( *)(?:(?:abbrev|unfoldable|pub|field|data|rec|opaque) +)*(" + NAME + r")(?: \{[^{}\n]*\})* :(?= |$)([^\n]*)")

# A definition keeps the plain spelling, and the law or the field that would meet it says that it holds, or whose it is.
APART = {
    "bad-size": "bad_size_refused", "big-in": "big_in_holds", "both-table": "both_table_holds", "byte-table": "byte_table_holds",
    "bytesBy": "bytes_by_counts", "close-stores": "close_stores_hold", "closing-table": "closing_table_holds", "count_at": "count_at_place",
    "count-in": "count_in_holds", "countsKept": "counts_kept_in", "end-in": "end_in_holds", "front-fields": "front_fields_hold",
    "head-sound": "head_sound_holds", "idle-table": "idle_table_holds", "in-second": "in_second_file", "is-task": "is_task_there",
    "late-table": "late_table_holds", "line-table": "line_table_holds", "loaded-sound": "loaded_sound_holds",
    "mapping-judged": "mapping_judged_holds", "mapping-table": "mapping_table_holds", "maxchunks-in": "maxchunks_in_holds",
    "moment-table": "moment_table_holds", "no-fault": "no_fault_found", "none-lacking": "none_lacking_there", "open-stores": "open_stores_hold",
    "opening-stores": "opening_stores_hold", "opening-table": "opening_table_holds", "order-table": "order_table_holds",
    "other-table": "other_table_holds", "own-answers": "own_answers_hold", "own-fields": "own_fields_hold", "p-table": "p_table_holds",
    "pack-table": "pack_table_holds", "packed-meta1": "packed_meta1_is", "pair-refusals": "pair_refusals_hold", "place-table": "place_table_holds",
    "power-of-two": "power_of_two_holds", "rank-at": "rank_at_place", "rank-in": "rank_in_holds", "reading-table": "reading_table_holds",
    "refused-close": "refused_close_holds", "rule-at": "rule_at_holds", "session-sound": "session_sound_holds", "size-at": "size_at_place",
    "size_in": "size_in_holds", "sound-table": "sound_table_holds", "stream-said": "stream_said_back", "task-in": "task_in_row",
    "tasks-in": "tasks_in_hold", "total-said": "total_said_back", "values-in": "values_in_hold",
}


def snake(name):
    name = name.replace("getD", "get_or")
    return re.sub(r"(?<=[a-z0-9])([A-Z])", lambda m: "_" + m[1].lower(), name).replace("-", "_")


def of_function(path):
    return path.split("/")[2] == "proofs" and path.count("/") > 3


def goal(kind):
    return re.match(r" (tie|goal)\.", kind) is not None


def main():
    files = sorted(f for f in glob.glob("crates/*/*/**/*.antt", recursive=True) if "/out/" not in f)
    texts = {f: open(f, encoding="utf-8").read() for f in files}
    shared, fields, local = {}, set(), collections.defaultdict(dict)
    goals = collections.defaultdict(set)
    for f, t in texts.items():
        for m in DECLARED.finditer(t):
            indent, name, kind = m[1], m[2], m[3]
            if goal(kind):
                goals[f].add(name)
                continue
            if not name[0].islower():
                continue
            new = APART.get(name) or snake(name)
            if new == name:
                continue
            (local[f] if of_function(f) else shared)[name] = new
            if indent:
                fields.add(name)
    # what port.py respelled already has its new name in .antt and .rt files, and its old one in edits and documents
    spelled = {m[2] for f, t in texts.items() if not of_function(f) for m in DECLARED.finditer(t)} | set(shared.values())
    met = collections.defaultdict(set)
    for old, new in shared.items():
        met[new].add(old)
    for new, olds in met.items():
        if len(olds) > 1:
            print("meet:", new, sorted(olds))

    def turned(f, text, function=False):
        mine = {**shared, **local.get(f, {})}
        kept = goals.get(f, set())

        def one(m):
            name, before = m[0], text[max(0, m.start() - 5):m.start()]
            if not f and name not in mine and snake(name) != name and name[0].islower() and snake(name) in spelled:
                return snake(name)
            if name not in mine or name in kept or re.search(r"\b(tie|goal)\.$", before):
                return name
            if function and before.endswith(".") and name not in fields and name not in local.get(f, {}):
                return name
            return mine[name]

        return re.sub(r"(?<![^\s(){}.;,@\"«»:|`])" + NAME, one, text)

    for f, t in texts.items():
        new = "\n".join(code_and_note(l, lambda s: turned(f, s, of_function(f)), shared, "--") for l in t.split("\n"))
        if new != t:
            open(f, "w", encoding="utf-8").write(new)
    for f in sorted(glob.glob("crates/*/src/**/*.rt", recursive=True)) + sorted(glob.glob("crates/*/must-fail/*.edit")):
        t = open(f, encoding="utf-8").read()
        new = re.sub(r"(?<![\w'-])[a-z][A-Za-z0-9_']*(?:-[A-Za-z0-9_']+)*(?![\w-])", lambda m: shared[m[0]] if m[0] in shared and camel(m[0]) else m[0], t)
        if f.endswith(".edit") and not re.search(r"(?m)^file: src/", t):
            new = "\n".join(turned("", l) if re.match(r"(old|new): ", l) else l for l in t.split("\n"))
        if new != t:
            open(f, "w", encoding="utf-8").write(new)
    for f in sorted(glob.glob("docs/*.md")) + ["README.md"]:
        t = open(f, encoding="utf-8").read()
        new = re.sub(r"`[^`\n]+`", lambda m: "`" + named(m[0][1:-1], shared, spelled) + "`", t)
        if new != t:
            open(f, "w", encoding="utf-8").write(new)


def camel(name):
    return re.search(r"[a-z0-9][A-Z]", name) is not None


def named(text, shared, spelled=()):
    def one(m):
        return shared.get(m[0]) or (snake(m[0]) if snake(m[0]) in spelled else m[0])

    return re.sub(r"(?<![\w'/-])[a-z][\w']*(?:-[\w']+)*(?![\w/-])", one, text)


def code_and_note(line, turn, shared, mark):
    """A line with its code turned, and in its note only the names in camel case and what stands in backticks."""
    m = re.search(r"(^|\s)" + mark + r"(\s|$)", line)
    if not m:
        return turn(line)
    code, note = line[:m.start()], line[m.start():]
    note = re.sub(r"`[^`]+`", lambda k: "`" + named(k[0][1:-1], shared) + "`", note)
    note = re.sub(r"(?<![\w'-])[a-z][A-Za-z0-9_']*(?![\w-])", lambda k: shared[k[0]] if k[0] in shared and camel(k[0]) else k[0], note)
    return turn(code) + note


if __name__ == "__main__":
    main()
