"""What the scripts of dev/ have in common: the files of crates/, their imports and what they declare, each with its line."""
import glob, os, re, sys

MARKS = r"(?:(?:unfoldable|abbrev|axiom|pub) )*"
# one import: the path, then names in braces, or another name for the module
USE = re.compile(r"(?m)^[ \t]*(?:unfoldable )?(?:pub )?(ghost )?use\s+([^\s{;]+?)(?:\.\{([^}]*)\}|::\{([^}]*)\}|\s+as\s+([^\s;]+))?;?[ \t]*$")
WORDS = {"module", "where", "let", "in", "use", "mod", "infix", "infixl", "infixr", "mutual", "open", "unfolding", "→", "×", "⊎", "|"}
NAMES = r"[^\s(){}=:;,@\"λ]+(?: [^\s(){}=:;,@\"λ]+)*"
SPLIT = re.compile(r"[\s()\[\]{},;.]+")


def files(only=()):
    """the .antt and .rt files of crates/, or of the crates named"""
    for top, _, names in sorted(os.walk("crates")):
        if only and (top.split("/") + [""])[1] not in only or (top.split("/") + ["", ""])[2] == "out": continue
        for n in sorted(names):
            if n.endswith((".antt", ".rt")): yield os.path.join(top, n)


def bare(text, rust):
    """the text without comments, line by line as before"""
    return re.sub(r"//[^\n]*", "", text) if rust else re.sub(r"(?m)(^|[\s(){}.;,@\"«»])--(?=\s|$)[^\n]*", r"\1", text)


def line_of(text, at):
    return text.count("\n", 0, at) + 1


def imports(text, rust):
    """list of (path, [(name, local)], alias, ghost, line), and the text without them. Of a path in braces, `N.d`, the local name is d."""
    found = []
    for m in USE.finditer(text):
        ghost, path, names, alias = bool(m[1]), m[2], m[3] or m[4], m[5]
        line = line_of(text, m.start(2))
        if names is None and not alias and rust and "::" in path:
            path, last = path.rsplit("::", 1)
            found.append((path, [(last, last)], None, ghost, line))
            continue
        pairs = []
        for n in (names or "").split(","):
            if n.strip():
                a = re.split(r"\s+as\s+", n.replace("«", "").replace("»", "").strip())
                pairs.append((a[0], a[-1] if len(a) > 1 else a[0].split(".")[-1]))
        found.append((path, pairs, alias or (path.split(".")[-1] if names is None else None), ghost, line))
    return found, USE.sub(lambda m: "\n" * m[0].count("\n"), text)


def source(path):
    """Rattle.c.specs.A.B -> (c, specs.A.B), where c is a crate here; of any other path (None, path)"""
    m = re.match(r"(?:package\.)?Rattle\.(\w+)\.(.*)$", path)
    return (m[1], m[2]) if m and os.path.isdir(f"crates/{m[1]}/src") else (None, path)


def is_definitions(crate):
    """whether this is a crate of definitions, which are believed by reading: rules, or rules_.."""
    return crate is not None and bool(re.fullmatch(r"rules(_\w+)?", crate))


def declared(text):
    """(names, line, of) of each signature, data type and record of an .antt file; a constructor is of a `data`, a field of a `record`"""
    lines, block, of = text.split("\n"), None, ""  # the indentation of the record or data type that we are in, and which of them it is
    for i, line in enumerate(lines):
        if not line.strip(): continue
        depth = len(line) - len(line.lstrip())
        if block is not None and depth <= block: block, of = None, ""
        if m := re.match(rf"\s*{MARKS}(record|data) ([^\s:({{]+)", line):
            yield [m[2].strip("«»")], i + 1, ""
            block, of = depth, m[1]
            continue
        m = re.match(rf"\s*{MARKS}({NAMES})(?: \{{[^}}]*\}})?( :(?: .*)?)?$", line)
        if not m or m[1].split(" ")[0] in WORDS: continue
        if m[2] or i + 1 < len(lines) and lines[i + 1].strip().startswith(":"): yield [n.strip("«»") for n in m[1].split(" ")], i + 1, of


def definitions(text):
    """(name, pub, indentation) of each definition and law of an .antt file, and the text that other files see"""
    lines, found, shown = text.split("\n"), [], []
    record = None  # the indentation of the record or data type that we are in
    i = 0
    while i < len(lines):
        line = lines[i]
        depth = len(line) - len(line.lstrip())
        if not line.strip():
            i += 1
            continue
        if record is not None and depth <= record[0]: record = None
        if record is not None:
            if record[1]: shown.append(line)
            i += 1
            continue
        m = re.match(r"^\s*((?:unfoldable |abbrev )*)(pub )?(record|data) (\S+)", line)
        if m:
            found.append((m.group(4), bool(m.group(2)), depth))
            record = (depth, bool(m.group(2)))
            if m.group(2): shown.append(line.replace(m.group(4), "", 1))
            i += 1
            continue
        m = re.match(r"^\s*((?:unfoldable |abbrev )*)(pub )?([^\s:(){}=]+)( :.*)?$", line)
        if m and (m.group(4) or (i + 1 < len(lines) and lines[i + 1].strip().startswith(":"))) and m.group(3) not in ("module", "where", "let", "in"):
            name, pub, open_ = m.group(3), bool(m.group(2)), bool(m.group(1).strip())
            if not name.startswith(("→", "×", "⊎", "|")):
                found.append((name, pub, depth))
                if pub: shown.append(m.group(4) or "")
                i += 1
                body = False
                while i < len(lines) and (not lines[i].strip() or len(lines[i]) - len(lines[i].lstrip()) > depth or
                                          lines[i].strip().startswith("unfolding ") or lines[i].strip().split(" ")[0] == name):
                    if lines[i].strip().split(" ")[0] == name: body = True
                    if pub and (open_ or not body): shown.append(lines[i].replace(name, "", 1) if body else lines[i])
                    if body and not lines[i].strip() and i + 1 < len(lines):
                        nxt = lines[i + 1]
                        if len(nxt) - len(nxt.lstrip()) <= depth and nxt.strip().split(" ")[0] != name: break
                    i += 1
                continue
        elif re.match(r"^\s*module ", line) or re.match(r"^\s*[({]", line):
            shown.append(line)  # parameters of a module stand in the signatures of what is in it
        i += 1
    return found, "\n".join(shown)


def defined_names():
    """name -> the files of the crates of definitions that declare it, but for constructors and fields"""
    found = {}
    for path in sorted(glob.glob("crates/rules*/specs/**/*.antt", recursive=True)):
        for names, _, of in declared(imports(bare(open(path).read(), False), False)[1]):
            for name in names:
                if not of: found.setdefault(name, set()).add(path)
    return found


def end(wrong):
    """prints each fault and leaves with status 1 if there is one"""
    for line in wrong: print(line)
    sys.exit(1 if wrong else 0)
