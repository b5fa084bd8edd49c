"""At what the prover refused a crate: for .ci/edits and evidence/mutations/try.

A refusal is written FUNCTION GOAL, as `sheet::Sheet::goal returns`, or FILE LAW, as `specs/Order order_small`, for a law that stands in a file
of specs/ or proofs/. Of what the prover says, the first error counts that is not a proof file's shape: one that only names what the code no
longer has, or cites a proof with such an error, as `rt` itself tells these apart. `python3 tools/refused.py CRATE FOLDER <LOG` prints it.
"""
import os, re, sys

SHAPE = "(the proof's shape)"
# Ends a name of which only the beginning was printed.
CUT = "…"
# The words of `rt must-fail`: a proof file that names what the edit took away, and what cites that proof.
NAMES = re.compile(r"(note: )?(\./)?proofs/.*(has no field|is not in scope|has no `|was not admitted)")
FN = re.compile(r'( *)(?:pub(?:\([^)]*\))? )?(?:(?:const|unsafe|final|extern "C") )*fn (\w+)')
IMPL = re.compile(r"(?:unsafe )?impl\b(?:<.*?>(?= ))? *(?:[\w:<>', ]+ for )?(\w+)")


def function_at(path, crate, line):
    """CRATE::FN or CRATE::TYPE::FN of the function of the file crates/CRATE/src/.. that the line belongs to; its attributes do, too"""
    owner, found, pending = None, None, None
    inside = path.split("/src/", 1)[1][: -len(".rt")]
    parts = [crate] + [p for p in inside.split("/") if inside not in ("lib", "main") and p != "mod"]
    for number, text in enumerate(open(path).read().split("\n"), 1):
        if m := IMPL.match(text): owner = m[1]
        if text == "}": owner = None
        if m := FN.match(text):
            if (pending or number) > line: break
            found = parts + ([owner] if owner and m[1] else []) + [m[2]]
        if text.lstrip().startswith("#["): pending = pending or number
        else: pending = None
    return "::".join(found or [crate])


def refused_at(crate, folder, said):
    """what a line of the prover says that it refused, where the crate stands in the folder; None if it says nothing of a goal or law"""
    m = re.match(r"(?:note: )?(?:\./)?(src|specs|proofs)/(\S+?)\.(?:rt|antt):(\d+):\d+: (.*)", said)
    if not m: return None
    part, where, line, rest = m.groups()
    if part == "src":
        name = re.search(r"\(`([^`]*)(`?)", rest)
        at = name and function_at(f"{folder}/src/{where}.rt", crate, int(line))
    else:
        name = re.match(r"error: `([^`]*)(`?)", rest)
        is_answer = part == "proofs" and "/" in where and os.path.basename(where) in ("Answers", "Invariants", "Proof")
        at = "::".join([crate, *where.split("/")[:-1]]) if is_answer else f"{part}/{where}"
    return name and f"{at} {name[1]}{'' if name[2] else CUT}"


def first_refused(crate, folder, log):
    """the same of a whole log of `rt check`"""
    told = [it for it in log.split("\n") if re.match(r"(note: )?\S+:\d+:\d+:", it)]
    told = [it for it in told if ": error" in it or it.startswith("note: ")] or told
    seen = [at for at in (refused_at(crate, folder, it) for it in told if not NAMES.match(it)) if at]
    return seen[0] if seen else SHAPE if told else "(nothing)"


if __name__ == "__main__": print(first_refused(sys.argv[1], sys.argv[2], sys.stdin.read()))
