#!/usr/bin/env python3
"""Checks what the documents say of the code, by name.

The index of docs/MODEL.md has each definition that a public contract cites: in a clause of a public function, in a public trait, or as
what contracts see of a public type. A definition is one of specs/, and is told by the comment that stands above it there. Where there is
none, or one that goes on from the definition before ("so it is ..", "and ..", "nor .."), the words that the index has stay. The laws of docs/PROMISES.md are the public functions with an empty body, told by
their comments.

    tools/check-index.py            lists names that the index lacks or that no public contract cites, laws that are lacking, and
                                    names, functions, clauses, files and sections that README.md, docs/ and bench/ speak of and that
                                    are not there; ends with 1 where there are any
    tools/check-index.py --write    writes the index and the laws anew
    tools/check-index.py --cited    lists where each definition is cited
"""

import collections
import glob
import os
import re
import sys

TOP = os.path.dirname(os.path.dirname(os.path.abspath(__file__)))
MODEL, PROMISES = "docs/MODEL.md", "docs/PROMISES.md"
INDEX = ("<!-- index: written by tools/check-index.py --write -->", "<!-- end of index -->")
LAWS = ("<!-- laws: written by tools/check-index.py --write -->", "<!-- end of laws -->")
NAME = r"[A-Za-z_][A-Za-z0-9_]*"
IMPORT = re.compile(r"ghost\s+use\s+Rattle\.(casper_\w+)\.specs\.([\w.]+?)(?:\.\{([^}]*)\}|\s+as\s+(\w+))?\s*;")
GOES_ON = re.compile(r"(so|and|nor)\b|.*\blaw above\b", re.IGNORECASE)
CLAUSE = re.compile(rf"\b(?:requires|ensures)\b\s*\*?\s*({NAME})?\s*\*?\s*$")

Definition = collections.namedtuple("Definition", "crate module name")
Function = collections.namedtuple("Function", "name owner start clauses names body")


def read(path):
    with open(os.path.join(TOP, path), encoding="utf-8") as file:
        return file.read()


def write(path, text):
    with open(os.path.join(TOP, path), "w", encoding="utf-8") as file:
        file.write(text)


def files_of(crate, part, ending):
    return sorted(glob.glob(f"{TOP}/crates/{crate}/{part}/**/*{ending}", recursive=True))


def crates():
    """The crates as crates.txt lists them, lowest first."""
    below, done = {}, []
    for line in read("crates.txt").splitlines():
        name, _, others = line.partition("#")[0].partition(":")
        if name.strip():
            below[name.split()[0]] = others.split()

    def visit(name):
        if name in below and name not in done:
            for other in below[name]:
                visit(other)
            done.append(name)

    for name in sorted(below):
        visit(name)
    return done


# The code


def without_comments(text):
    return re.sub(r"//[^\n]*", lambda it: " " * len(it.group()), text)


def closed(text, at):
    """The place after the brace that closes the one at this place."""
    depth = 0
    for place in range(at, len(text)):
        depth += {"{": 1, "}": -1}.get(text[place], 0)
        if depth == 0:
            return place + 1
    return len(text)


def contract_of(text, at):
    """The clauses after the head of a function, their names, and the place of its body or its semicolon."""
    clauses, names = [], []
    while True:
        found = re.compile(r"[{;]").search(text, at)
        if not found or found.group() == ";":
            return clauses, names, found.start() if found else len(text)
        head = CLAUSE.search(text[at : found.start()])
        if not head:
            return clauses, names, found.start()
        at = closed(text, found.start())
        clauses.append(text[found.start() : at])
        names.append(head.group(1))


def owners_of(text):
    """The places of each impl and trait, with the type or trait that it is of."""
    for found in re.finditer(r"(?m)^\s*(?:pub )?(impl|trait)\b([^{;]*)\{", text):
        kind, head = found.groups()
        # (the parameters of an impl, and what stands before `for`)
        head = re.sub(r"^<(?:[^<>]|<[^<>]*>)*>", "", head.strip()).rpartition(" for ")[2]
        start = found.end() - 1
        yield found.start(), closed(text, start), re.search(NAME, head).group(), kind == "trait"


def functions_of(text, every=False):
    """The public functions of a file and those of its public traits, or every function."""
    owners = list(owners_of(text))
    for found in re.finditer(rf"(?<![\w(])(pub )?(?:const )?fn ({NAME})", text):
        around = [it for it in owners if it[0] <= found.start() < it[1]]
        owner, is_of_trait = (around[-1][2], around[-1][3]) if around else (None, False)
        if every or found.group(1) or is_of_trait:
            clauses, names, body = contract_of(text, found.end())
            yield Function(found.group(2), owner, found.start(), clauses, names, body)


def exported(crate):
    """The names that a crate hands out."""
    text = without_comments("".join(read(it) for it in files_of(crate, "src", ".rt") if it.endswith(("/lib.rt", "/main.rt"))))
    return {name for use in re.findall(r"\bpub use ([^;]*);", text) for name in re.findall(NAME, use)}


def public_parts(text, names):
    """The text of each public contract, with the name of the function, trait or type."""
    for it in functions_of(text):
        if (it.owner or it.name) in names:
            for clause in it.clauses:
                yield f"{it.owner}::{it.name}" if it.owner else it.name, clause
    for found in re.finditer(rf"\bpub trait ({NAME})", text):
        start = text.index("{", found.end())
        for member in re.findall(r"\bghost\s+\w+\s*:\s*(\{[^}]*\})", text[start : closed(text, start)]):
            yield found.group(1), member
    for found in re.finditer(rf"\bimpl\b[^{{;]*?\bModel for ({NAME})", text):
        start = text.index("{", found.end())
        for value in re.findall(r"\bghost Value\s*=\s*(\{[^}]*\})", text[start : closed(text, start)]):
            if found.group(1) in names:
                yield found.group(1), value


def imports_of(text):
    """The definitions of this repository by the names that a file has for them."""
    names, modules = {}, {}
    for crate, module, listed, alias in IMPORT.findall(text):
        if "declared" in module.split("."):
            continue
        if listed:
            for item in filter(None, (it.strip() for it in listed.split(","))):
                name, _, other = item.partition(" as ")
                names.setdefault((other or name).strip(), Definition(crate, module, name.strip()))
        else:
            modules[alias or module.split(".")[-1]] = (crate, module)
    return names, modules


def cited():
    """Each definition that a public contract cites, with the functions, traits and types that cite it."""
    found = collections.defaultdict(set)
    for crate in crates():
        names_out = exported(crate)
        for path in files_of(crate, "src", ".rt"):
            text = without_comments(read(path))
            names, modules = imports_of(text)
            for item, part in public_parts(text, names_out):
                where = f"{crate}::{item}"
                for word in set(re.findall(rf"(?<![\w.]){NAME}", part)):
                    if word in names:
                        found[names[word]].add(where)
                for alias, (of, module) in modules.items():
                    for name in set(re.findall(rf"(?<![\w.]){alias}\.({NAME})", part)):
                        found[Definition(of, module, name)].add(where)
    return found


def definitions():
    """Each definition of specs/, with the comment above it."""
    found = {}
    for crate in crates():
        for path in files_of(crate, "specs", ".antt"):
            module = os.path.relpath(path, f"{TOP}/crates/{crate}/specs")[: -len(".antt")].replace("/", ".")
            comment = []
            # Those of a module with parameters stand further in.
            for line in map(str.lstrip, read(path).splitlines()):
                head = re.match(rf"(?:(?:abbrev|unfoldable) pub|pub (?:record|data|[a-z]+ (?:record|data))) ({NAME})", line)
                if head:
                    found.setdefault(Definition(crate, module, head.group(1)), " ".join(comment))
                comment = [*comment, line[2:].strip()] if line.startswith("--") else []
    return found


def laws():
    """Each public function with an empty body: its path, what its comment says, and its clauses with the definitions that they name."""
    for crate in crates():
        names = exported(crate)
        for path in files_of(crate, "src", ".rt"):
            source = read(path)
            text = without_comments(source)
            for it in functions_of(text):
                if it.owner or it.name not in names or not re.match(r"\{\s*\}", text[it.body :]):
                    continue
                above = source[: source.rindex("\n", 0, it.start) + 1].splitlines()
                comment = []
                while above and above[-1].startswith("///"):
                    comment.insert(0, above.pop()[3:].strip())
                said = re.sub(r" It does nothing\.$|, as (?:the contract|contracts) of a call that does nothing", "", " ".join(comment))
                stated = [re.fullmatch(rf"\{{\s*({NAME})\s*\}}", clause) for clause in it.clauses]
                pairs = [(name, found and found.group(1)) for name, found in zip(it.names, stated)]
                yield f"{crate}::{it.name}", sentence(said), "; ".join(": ".join(f"`{word}`" for word in pair if word) for pair in pairs)


# The documents


def sentence(comment):
    """A comment as a sentence that fits a cell of a table."""
    text = re.sub(r"\s+", " ", comment).strip().replace("|", "\\|")
    return text[:1].upper() + text[1:]


def between(page, marks):
    """What stands before, between and after two marks."""
    before, _, rest = page.partition(marks[0])
    inner, _, after = rest.partition(marks[1])
    return before, inner, after


def with_part(page, marks, part):
    before, _, after = between(page, marks)
    return f"{before}{marks[0]}\n\n{part}\n\n{marks[1]}{after}"


def citing(where):
    """The functions, traits and types that cite a definition, the first two of them by name."""
    names = sorted(where)
    return ", ".join(f"`{it}`" for it in names[:2]) + (f" and {len(names) - 2} more" if len(names) > 2 else "")


def words_for(comment, there):
    """What the index says of a definition with this comment, for which it had these words."""
    return there if there and (not comment or GOES_ON.match(comment)) else sentence(comment)


def index(wanted, known, there):
    """A table for each crate, by name."""
    lines = []
    for crate in crates():
        rows = sorted((it for it in wanted if it.crate == crate), key=lambda it: (it.name.lower(), it.module))
        if rows:
            lines += ["", f"### `{crate}`", "", "| name | in words | module | cited by |", "|---|---|---|---|"]
            lines += [f"| `{it.name}` | {words_for(known[it], there.get(it, ''))} | `{it.module}` | {citing(wanted[it])} |" for it in rows]
    return "\n".join(lines).strip()


def indexed(page):
    """The definitions that the index has, with their words."""
    found, crate = {}, ""
    for line in between(page, INDEX)[1].splitlines():
        head = re.match(r"### `(\w+)`", line)
        row = re.match(r"\| `(\w+)` \| (.*) \| `([\w.]+)` \| [^|]* \|$", line)
        if head:
            crate = head.group(1)
        elif row:
            found[Definition(crate, row.group(3), row.group(1))] = row.group(2).strip()
    return found


def table_of_laws():
    rows = [f"| `{path}` | {said} | {clauses} |" for path, said, clauses in laws()]
    return "\n".join(["| law | what holds | clauses, and what they name |", "|---|---|---|", *rows])


def pages():
    return ["README.md", *(os.path.relpath(it, TOP) for it in sorted(glob.glob(f"{TOP}/docs/*.md") + glob.glob(f"{TOP}/bench/*.md")))]


def lost_functions(page, text):
    """Functions, types and clauses that a page names and that are not in the code."""
    # (the index and the laws are written from the code)
    for marks in (INDEX, LAWS):
        text = "".join(between(text, marks)[::2]) if marks[0] in text else text
    # `casper_a::f`, `casper_a::g` clauses `c`, `d`
    group = re.compile(r"((?:`casper_\w+::[\w:]+`,?\s*)+)(?:\(?clauses? ((?:`\w+`(?:, | and )?)+))?")
    for paths, clauses in group.findall(text):
        for crate, path in re.findall(r"`(casper_\w+)::([\w:]+)`", paths):
            sources = [without_comments(read(it)) for it in files_of(crate, "src", ".rt")]
            *owner, name = path.split("::")
            there = [it for source in sources for it in functions_of(source, True) if it.name == name and it.owner in (owner or [None])]
            is_type = any(re.search(rf"\b(?:struct|enum|trait) {name}\b", it) for it in sources)
            if not there and not is_type:
                yield f"{page} names {crate}::{path}, which is not in the code"
            for clause in re.findall(r"`(\w+)`", clauses):
                if there and not any(clause in it.names for it in there):
                    yield f"{page} names the clause {clause} of {crate}::{path}, which has none of that name"


def lost_links(page, text):
    """Files and sections that a page links to and that are not there."""
    for target in re.findall(r"\]\(([^)\s]+)\)", text):
        path, _, section = target.partition("#")
        if "://" in target:
            continue
        to = os.path.normpath(os.path.join(os.path.dirname(page), path)) if path else page
        if not os.path.exists(os.path.join(TOP, to)):
            yield f"{page} links to {to}, which is not there"
        elif section:
            heads = re.findall(r"(?m)^#+ (.*)$", read(to))
            if section not in [re.sub(r"[^\w\- ]", "", it.lower()).replace(" ", "-") for it in heads]:
                yield f"{page} links to the section {section} of {to}, which is not there"
    for path in re.findall(r"`((?:crates|tools|bench|docs|examples)/[\w./-]+\.\w+)`", text):
        if not os.path.exists(os.path.join(TOP, path)):
            yield f"{page} names {path}, which is not there"


def lost_names(page, text, code):
    """Names of definitions, fields and types that a page of docs/ speaks of and that are nowhere in the code."""
    # (FORMAT.md speaks of bytes)
    if not page.startswith("docs/") or page.endswith("FORMAT.md"):
        return
    for name in sorted(set(re.findall(rf"`({NAME})`", text))):
        # (words of a schedule or of a command line are no names, and crates may be planned)
        if re.search("[A-Z_]", name) and not name.startswith("casper") and name not in code:
            yield f"{page} names {name}, which is nowhere in the code"


def main(words):
    known = definitions()
    # (what no line of specs/ begins to define is a case of a data type that it defines)
    wanted = {it: where for it, where in cited().items() if it in known}
    full = lambda it: f"{it.crate}.{it.module}.{it.name}"
    if words == ["--cited"]:
        for it in sorted(wanted):
            print(f"{full(it)}: {', '.join(sorted(wanted[it]))}")
        return 0
    for page, marks in ((MODEL, INDEX), (PROMISES, LAWS)):
        if any(read(page).count(it) != 1 for it in marks):
            print(f"check-index: {page} needs the lines {marks[0]} and {marks[1]}, once each")
            return 1
    there = indexed(read(MODEL))
    if words == ["--write"]:
        write(MODEL, with_part(read(MODEL), INDEX, index(wanted, known, there)))
        write(PROMISES, with_part(read(PROMISES), LAWS, table_of_laws()))
        print(f"check-index: wrote {len(wanted)} definitions and {len(list(laws()))} laws")
        return 0
    if words:
        print(__doc__.strip(), file=sys.stderr)
        return 64
    faults = [f"{MODEL} lacks {full(it)}" for it in sorted(wanted) if it not in there]
    faults += [f"{MODEL} has {full(it)}, which no public contract cites" for it in sorted(there) if it not in wanted]
    told = between(read(PROMISES), LAWS)[1]
    faults += [f"{PROMISES} lacks the law {path}" for path, _, _ in laws() if f"| `{path}` |" not in told]
    code = {word for crate in crates() for part in ("src", "specs") for it in files_of(crate, part, "") if os.path.isfile(it) for word in re.findall(NAME, read(it))}
    for page in pages():
        text = read(page)
        faults += [*lost_functions(page, text), *lost_links(page, text), *lost_names(page, text, code)]
    for fault in faults:
        print(f"check-index: {fault}")
    if faults:
        print("check-index: tools/check-index.py --write writes the index and the laws anew")
    elif told.strip() != table_of_laws() or between(read(MODEL), INDEX)[1].strip() != index(wanted, known, there):
        print("check-index: note: comments of the code have changed since the tables were written: tools/check-index.py --write")
    for it in sorted(there):
        if not there[it]:
            print(f"check-index: note: {full(it)} has no words: write them into {MODEL}, or a comment above the definition")
    if not faults:
        print(f"check-index: ok {len(there)}")
    return 1 if faults else 0


if __name__ == "__main__":
    sys.exit(main(sys.argv[1:]))
