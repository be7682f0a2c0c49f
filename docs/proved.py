#!/usr/bin/env python3
"""Prints docs/PROVED.md: each crate's public calls with the names of the clauses that their contracts ensure, from the sources.

    docs/proved.py > docs/PROVED.md      after a change of a public call or clause; the documents' test compares both
"""
import pathlib
import re
import textwrap

TOP = pathlib.Path(__file__).resolve().parents[1]
HEAD = """# What is proved, crate by crate

Made by `docs/proved.py` from the sources. "Proved" means: for every input the function meets the contract beside it, is safe
(no overflow, no index out of range, no use after free), and returns. That calls which wait return isn't shown: those of `own_stacks`,
`server`, `s4d`, `group_commit`, `batch_serving`, `kept_drive` and `s4serve`.

Each crate's public calls that have a contract, with the names of its clauses in brackets. Left out after a first one are `same`,
`unchanged` and `others` (what stays), `ledger`, `state` and `store` where history and objects stay, `refusal`, `memory`, `none`,
`failures` and `empty` (what a refusal leaves, or nothing), `exact`, `found` and `only` (the result, and no other), and `least`, `most` and
`few` (bounds). A **law** is a theorem: a function without arguments. The contracts are in `crates/CRATE/src`, in terms of [DEFINITIONS](DEFINITIONS.md).

**An argument in writing**, of `s4serve`, joins its clauses. A reply goes out where a receipt covers its step
(`serve_line`), and a receipt shows that a crash left an image of a drive with as many changes, at its reach (`KeptReceipt::shows`).
No clause says that they are those which the step had seen (`sessions_have_seen_one_list`, then `what_is_covered_is_kept`); that a crash
falls between two calls of the folder, one inside a call being a folder whose later calls fail; that the lock of the monitor orders what
receipts of several sessions say; that files are as calls answer (see `service_seen`), the keeper's path is the image's, and
`is_in_place` looks there; that a thread which waits goes on; that workers reach clients, and the drive, by `open_at` and `serve_line`
alone, and nobody the drive before; that `AtDoor::next` alone makes a `StopLine`; that status 0 is `serve_image`'s.
"""
WIDTH = 130
USUAL = {"same", "unchanged", "others", "refusal", "memory", "none", "failures", "empty", "ledger", "least", "most", "few", "exact",
         "found", "only"}
HISTORY = {"ledger", "state"}
FUNCTION = re.compile(r"\s*(?:(pub) |pub\([^)]*\) )?(?:const |unsafe |final )*fn (\w+)(.*)")
OWNER = re.compile(r"(?:pub )?(?:unsafe )?(impl|trait)\b(.*)")
CLAUSE = re.compile(r"\s*ensures\s*(\w*)\s*\{")
GHOST = re.compile(r"    ghost (\w+):")


def without_parameters(text):
    """The text without the type parameters that it begins with."""
    depth = 0
    for at, letter in enumerate(text):
        depth += (letter == "<") - (letter == ">" and text[at - 1] != "-")
        if depth == 0:
            return text[at + 1:] if at else text
    return text


def owner_of(line):
    """The type or trait whose block a line opens: its name, and whether all of its functions are public, as a trait's are."""
    kind, rest = OWNER.match(line).groups()
    if kind == "trait":
        return re.match(r"\s*(\w+)", rest).group(1), True
    rest = without_parameters(rest)
    # What a type does for a trait is in the trait's contract.
    return (None, False) if " for " in rest else (re.match(r"\s*(\w+)", rest).group(1), False)


def contract(lines, at):
    """The names of the clauses that the function at this line ensures; '' for one without a name. Its body has none of them."""
    names = []
    margin = re.match(" *", lines[at]).group(0)
    for line in lines[at + 1:] if not lines[at].endswith("{") else []:
        if FUNCTION.match(line) or OWNER.match(line) or line.startswith("}"):
            break
        if re.match(margin + r"\S", line) and line.endswith(("{", "{}")):
            break
        clause = CLAUSE.match(line)
        if clause:
            names.append(clause.group(1))
    return names


def functions(path):
    """Yields of a file's functions: the type or trait that has it, whether it is public, its name, its clauses, whether it is a law."""
    lines, owner, all_public = path.read_text(encoding="utf-8").splitlines(), "", False
    for at, line in enumerate(lines):
        if OWNER.match(line):
            # Where the parameters of a block have lines of their own, what they are for comes after the last.
            end = at if line != "impl<" else next(i for i in range(at, len(lines)) if lines[i].startswith(">"))
            owner, all_public = owner_of("".join(lines[at:end + 1]))
        elif line.startswith("}"):
            owner, all_public = "", False
        found = FUNCTION.match(line)
        if found and owner is not None:
            public, name, rest = found.groups()
            yield owner, bool(public) or all_public, name, contract(lines, at), rest.strip() in ("()", "() {}")


def laws_of_traits(path):
    """Yields each trait of a file that has laws, and their names: the ghost members below its last function."""
    for name, body in re.findall(r"^pub trait (\w+)[^\n]*\{\n(.*?)^\}", path.read_text(encoding="utf-8"), re.M | re.S):
        lines = body.splitlines()
        last = max((at for at, line in enumerate(lines) if FUNCTION.match(line)), default=len(lines))
        laws = [found.group(1) for found in map(GHOST.match, lines[last + 1:]) if found]
        if laws:
            yield name, laws


def exported(root):
    """The names that a crate hands out, each with the first module of its path, and its public modules."""
    text = root.read_text(encoding="utf-8")
    names = {}
    for path, many, one in re.findall(r"^pub use ((?:\w+::)*)(?:\{([^}]*)\}|(\w+))", text, re.M):
        names.update((word.split(" as ")[-1].strip(), path.split("::")[0]) for word in (many or one).split(","))
    return names, set(re.findall(r"^pub mod (\w+);", text, re.M))


def shown(clauses):
    """The clauses of a call that are named on the page."""
    named = [clause for clause in clauses if clause]
    # Beside each other a history and a store are what stays; alone a state or a store is what is made.
    both = "store" in named[1:] and HISTORY & set(named[1:])
    return named[:1] + [clause for clause in named[1:] if clause not in (USUAL | {"state", "store"} if both else USUAL)]


def calls_of(source):
    """The public calls of a crate: of each type or trait, and its laws."""
    root = next(path for path in (source / "lib.rt", source / "main.rt") if path.exists())
    names, modules = exported(root)
    # A program hands out nothing; what its modules share is its contract.
    is_program = root.name == "main.rt"
    calls = {}
    for path in sorted(source.rglob("*.rt")):
        for owner, public, name, clauses, is_law in functions(path):
            # Another module's function of the same name isn't handed out.
            is_out = names.get(name) in (path.stem, *path.relative_to(source).parts[:-1])
            is_free = not owner and (is_out or path.stem in modules or path == root)
            if public and clauses and (is_free or owner in names or is_program):
                law = is_law and not owner
                said = ", ".join(filter(None, clauses) if law else shown(clauses))
                row = f"`{name}`" + (f" ({said})" if said else "")
                calls.setdefault("Laws" if law else owner, []).append(row)
        for trait, laws in laws_of_traits(path):
            if trait in names:
                calls.setdefault(trait, []).append(("laws " if laws[1:] else "law ") + ", ".join(f"`{law}`" for law in laws))
    return calls


def page():
    """The text of the page."""
    parts = [HEAD]
    for line in (TOP / "crates.txt").read_text(encoding="utf-8").splitlines():
        if not line or line.startswith("#") or "tests_may" in line:
            continue
        crate = re.match(r"\w+", line).group(0)
        calls = calls_of(TOP / "crates" / crate / "src")
        rows = [("" if not owner else f"{owner}: " if owner == "Laws" else f"`{owner}`: ") + "; ".join(calls[owner])
                for owner in sorted(calls, key=lambda it: (it == "Laws", it != "", it))]
        if rows:
            filled = (textwrap.fill(f"- {row}.", WIDTH, subsequent_indent="  ", break_on_hyphens=False) for row in rows)
            parts.append(f"\n## `{crate}`\n\n" + "".join(f"{row}\n" for row in filled))
    return "".join(parts)


if __name__ == "__main__":
    print(page(), end="")
