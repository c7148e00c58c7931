#!/usr/bin/env python3
"""Counts, over all crates, what the house rules of CONTRIBUTING.md ask to be none: lines of clauses over 100 columns,
files over 600 lines, functions, definitions and lemmas with no comment above them, files of specs/ with no head, public
names of two things, and must-fail edits whose text does not stand once or that give no reason.

Names of two things are those of specs/ that stand in two files, and those of types and functions that two crates
export, or that one exports as a type and another has in its specs/. Not counted: a function with the name of a word of
specs/, which says what that function answers; a law without parameters, which says of its crate's own subject what one
of the same name says of another; methods; and aliases of types.

`bench/counts.py NAME ..` lists the places in these crates; with no name it prints the numbers alone."""
import os
import re
import sys

CLAUSE = re.compile(r"(requires|ensures|ghost (?!use))\b")
FUNCTION = re.compile(r"(pub(\(\w+\))? )?(const )?fn \w+")
DEFINITION = re.compile(r"(abbrev pub|pub abbrev|pub record|pub data|abbrev|record|data)\s+([\w']+)")
EXPORTED = re.compile(r"pub (struct|enum|trait|(?:const )?fn) (\w+)(?!\w|\(\)$)")
LEMMA = re.compile(r"(pub )?([A-Za-z_][\w']*) ?[:({]")
WRITTEN_BY_THE_TOOLCHAIN = ("Answers.antt", "Invariants.antt", "Proof.antt", "Lib.antt")


def files(crate, folder, ending):
    """The files of one folder of a crate, with their lines."""
    for at, _, names in sorted(os.walk(f"crates/{crate}/{folder}")):
        for name in sorted(names):
            if name.endswith(ending) and name not in WRITTEN_BY_THE_TOOLCHAIN:
                with open(f"{at}/{name}") as file:
                    yield f"{at}/{name}", file.read().split("\n")


def of_code(path, lines):
    """What is found in a file of src/."""
    if len(lines) > 601:
        yield "long files", path, f"{len(lines)} lines"
    in_impl_of_trait, depth = False, 0
    for number, line in enumerate(lines, 1):
        text = line.strip()
        if re.match(r"impl\b.* for ", line):
            in_impl_of_trait = True
        elif line.startswith("}"):
            in_impl_of_trait = False
        if depth > 0 or CLAUSE.match(text):
            if len(line) > 100:
                yield "clauses over 100 columns", path, f"{number}: {text}"
            depth += line.count("{") - line.count("}")
        if FUNCTION.match(text) and not in_impl_of_trait:
            above = number - 2
            while above >= 0 and lines[above].strip().startswith("#["):
                above -= 1
            if not lines[above].strip().startswith("//"):
                yield "functions with no comment", path, f"{number}: {text}"


def of_logic(path, lines):
    """What is found in a file of specs/ or proofs/."""
    if "/specs/" in path and not lines[0].startswith("--"):
        yield "specs files with no head", path, ""
    for number, line in enumerate(lines, 1):
        if lines[number - 2].startswith("--"):
            continue
        if DEFINITION.match(line):
            yield "definitions with no comment", path, f"{number}: {line}"
        elif LEMMA.match(line) and " : " in line and not re.match(r"(use|mod|module|open|where|let|in|infix)\b|[^:]*=", line):
            yield "lemmas with no comment", path, f"{number}: {line}"


def exported(crate):
    """The types and functions that other crates can name: each name with its file, and whether it is a type."""
    root = f"crates/{crate}/src/lib.rt"
    files_of_code = list(files(crate, "src", ".rt"))
    named = re.findall(r"^pub use [^;]+;", "\n".join(dict(files_of_code).get(root, [])), re.M)
    for path, lines in files_of_code:
        for match in filter(None, map(EXPORTED.match, lines)):
            if path == root or match[2] in re.findall(r"\w+", " ".join(named)):
                yield match[2], path, not match[1].endswith("fn")


def of_edits(crate):
    """What is found in the must-fail edits."""
    folder = f"crates/{crate}/must-fail"
    for name in sorted(os.listdir(folder)) if os.path.isdir(folder) else []:
        with open(f"{folder}/{name}") as file:
            lines = file.read().split("\n")
        if not any(line.startswith("why: ") for line in lines):
            yield "edits with no reason", f"{folder}/{name}", ""
        texts, path, old = {}, "", ""
        for line in lines:
            if line.startswith("file: "):
                path = f"crates/{crate}/{line[6:].strip()}"
                if path not in texts:
                    with open(path) as file:
                        texts[path] = file.read()
            elif line.startswith("old: "):
                old = line[5:]
                if texts[path].count(old) != 1:
                    yield "edits that do not apply", f"{folder}/{name}", old
            elif line.startswith("new: "):
                texts[path] = texts[path].replace(old, line[5:], 1)


def main():
    with open("crates.txt") as file:
        crates = [line.split(":")[0].strip() for line in file if ":" in line]
    found, names = [], {}
    for crate in sys.argv[1:] or crates:
        for path, lines in files(crate, "src", ".rt"):
            found += of_code(path, lines)
        for folder in ("specs", "proofs"):
            for path, lines in files(crate, folder, ".antt"):
                found += of_logic(path, lines)
        found += of_edits(crate)
    for crate in crates:
        for path, lines in files(crate, "specs", ".antt"):
            for line in lines:
                match = DEFINITION.match(line)
                if match and "pub" in match[1]:
                    names.setdefault(match[2], set()).add(path)
    exports = {}
    for crate in crates:
        for name, path, is_type in exported(crate):
            elsewhere = {other for other in names.get(name, ()) if is_type and not other.startswith(f"crates/{crate}/")}
            exports.setdefault(name, set()).update({path}, elsewhere)
    for name, paths in sorted([*names.items(), *exports.items()]):
        if len(paths) > 1:
            found.append(("names of two things", " ".join(sorted(paths)), name))
    if sys.argv[1:]:
        for kind, path, text in found:
            print(f"{kind}: {path}:{text}"[:160])
    kinds = ("clauses over 100 columns", "functions with no comment", "definitions with no comment")
    kinds += ("lemmas with no comment", "specs files with no head", "names of two things", "long files")
    for kind in (*kinds, "edits with no reason", "edits that do not apply"):
        print(f"{sum(1 for it in found if it[0] == kind):5} {kind}")


if __name__ == "__main__":
    main()
