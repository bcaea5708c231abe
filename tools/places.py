#!/usr/bin/env python3
"""Lists the places of the design pass in crates/*/src, point by point, and counts them.

places.py [COMMIT]    the tree of COMMIT, or the files as they are
places.py -c [COMMIT] the counts alone
"""
import collections
import re
import subprocess
import sys


def sources(commit):
    if commit:
        names = subprocess.run(
            ["git", "ls-tree", "-r", "--name-only", commit], check=True, capture_output=True, text=True
        ).stdout.split()
    else:
        names = subprocess.run(["git", "ls-files", "-co", "--exclude-standard"], check=True, capture_output=True, text=True).stdout.split()
    for name in sorted(names):
        if re.fullmatch(r"crates/[a-z_]+/src/.*\.rt", name):
            if commit:
                text = subprocess.run(["git", "show", f"{commit}:{name}"], check=True, capture_output=True, text=True).stdout
            else:
                try:
                    text = open(name, encoding="utf-8").read()
                except FileNotFoundError:
                    continue
            yield name, text


# Point, what is looked for, and the form of a line that has it. Comments and contracts are left out.
LINES = [
    (1, "a bool or a pair with one as an answer", r"-> \(?[^{]*\bbool\b|-> Result<bool"),
    (1, "a number as an error", r"Result<.*, (u8|u16|u32|u64|usize)>"),
    (1, "a flag as a field", r"^\s*(pub(\([a-z]+\))? )?[a-z_]+: bool,$"),
    (1, "a number in place of none", r"unwrap_or\(0\)"),
    (1, "an own enum or error type", r"^(pub )?enum |struct \w*(Memory|Error|Fault)\b"),
    (3, "a loop with a count or a condition", r"^\s*(while|loop)\b"),
    (3, "a loop over numbers", r"\bfor \w+ in [^{]*\.\.[^{]*\{"),
    (3, "a loop that only counts or searches", r"^\s*(count \+= 1;|unused = false;)"),
    (4, "a conversion method", r"\bfn (code|byte|explain|asked|answer_of|measure)\b"),
    (4, "a conversion with as", r"\bas (u8|u16|u32|u64|usize)\b"),
    (4, "an impl by hand", r"^impl.* (PartialEq|Eq|PartialOrd|Ord|Order<\w+>|Clone|Copy|Default|From<\w+>|TryFrom<.*>|fmt::Display|Drop) for "),
    (4, "printing by hand", r"\bfn (print|push|tell|explain)_\w*"),
    (6, "a fixed array", r"\[[^\[\]]*; *[A-Za-z0-9_]+\]"),
    (6, "a lent buffer that is written", r"&(\'a )?mut \[\w"),
    (7, "a switch over cases", r"\bmatch (self|failure|selection|answer|outcome|name|call|event\.call|command|fault|&self\.cause|res)\b"),
]


def code_lines(text):
    depth = 0
    for number, line in enumerate(text.split("\n"), 1):
        bare = line.strip()
        if bare.startswith("//") or bare.startswith("ghost ") or bare.startswith(("requires ", "ensures ")):
            continue
        yield number, line


def functions(text):
    """Name, parameters and clauses of each function."""
    for found in re.finditer(r"\bfn (\w+)(?:<[^(]*>)?\(([^)]*(?:\([^)]*\)[^)]*)*)\)(.*?)\n\s*\{\n", text, re.S):
        name, parameters, rest = found.groups()
        names = [p.strip() for p in re.sub(r"\s+", " ", parameters).split(",") if p.strip()]
        clauses = re.findall(r"(?:requires|ensures)(?: \w+)? \{ (.*) \}", rest)
        yield name, names, clauses


def main():
    arguments = sys.argv[1:]
    counts_only = "-c" in arguments
    arguments = [a for a in arguments if a != "-c"]
    commit = arguments[0] if arguments else None
    files = list(sources(commit))
    counts = collections.OrderedDict()
    for point, what, form in LINES:
        hits = []
        for name, text in files:
            hits += [f"{name}:{n}: {line.strip()}" for n, line in code_lines(text) if re.search(form, line)]
        counts[(point, what)] = hits
    # Point 2: runs of code that stand twice with other names.
    shapes = collections.defaultdict(list)
    for name, text in files:
        lines = [(n, re.sub(r"\b[A-Za-z_]\w*\b|\d[\d_]*", "x", line.strip())) for n, line in code_lines(text) if line.strip() and line.strip() not in "})];"]
        for start in range(len(lines) - 5):
            run = tuple(s for _, s in lines[start : start + 6])
            if not any(s.startswith("use") or s.startswith("x x::") for s in run):
                shapes[run].append(f"{name}:{lines[start][0]}")
    counts[(2, "six lines of one shape, in two places or more")] = [" ~ ".join(v) for v in shapes.values() if len(v) > 1]
    # Point 5: clauses and parameters that three functions or more have.
    facts, travels = collections.defaultdict(list), collections.defaultdict(list)
    for name, text in files:
        for function, parameters, clauses in functions(text):
            for clause in clauses:
                facts[(name.split("/")[1], clause)].append(function)
            plain = [p for p in parameters if "self" not in p and not p.startswith("rt:")]
            for i in range(len(plain)):
                for j in range(i + 1, len(plain)):
                    travels[(name.split("/")[1], plain[i], plain[j])].append(function)
    counts[(5, "a clause of three functions or more")] = [f"{k[0]}: {k[1]}: {', '.join(v)}" for k, v in facts.items() if len(v) > 2]
    counts[(5, "two parameters that three functions or more have")] = [f"{k[0]}: {k[1]}, {k[2]}: {', '.join(v)}" for k, v in travels.items() if len(v) > 2]
    for (point, what), hits in sorted(counts.items(), key=lambda item: item[0][0]):
        print(f"{point}  {what}: {len(hits)}")
        if not counts_only:
            for hit in hits:
                print(f"     {hit}")


main()
