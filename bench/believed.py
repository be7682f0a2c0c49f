#!/usr/bin/env python3
"""Counts what a reader has to believe of the main theorems: the lines of all definitions that their clauses rest on.

    bench/believed.py                             the clauses of the tables below, by file; fails above a ceiling
    bench/believed.py [--items] CLAUSE..          these clauses, each written CRATE/FUNCTION/NAME, as in interleaving/run/model;
                                                  of a clause without a name the last is empty
    bench/believed.py --why NAME [CLAUSE..]       one way from a clause to the definition of that name

A clause is what a function ensures, or what it requires of whoever calls it. It rests on each definition that it names, on each that those name, and so on: of `specs` in any crate; and of sources the
types that a clause, its parameters or a definition name, by what contracts see of them (`ghost Value`, else fields or variants),
constants, and what a trait has for proofs alone. All lines of data with named fields count, but a field is followed only where
something names it; of a result that may fail just what the clause looks at. What is of the kit isn't counted, nor are blank lines, comments, imports and attributes. A line counts once
for each 100 characters begun, and so do a clause and a variant of a type in a source, on however many lines they are laid out.
"""
import argparse
import collections
import functools
import pathlib
import re
import sys

CRATES = pathlib.Path(__file__).resolve().parents[1] / "crates"
# The clauses that say what the README claims of interleaved steps, of a full pass, of a run and of an image that is read and written.
WHOLE = (
    "interleaving/run/model", "interleaving/run/decodes", "interleaving/run/base",
    "history_cleaner/full_pass/cleaned", "history_cleaner/full_pass/vacated", "history_cleaner/full_pass/ledger", "history_cleaner/full_pass/needed",
    "history_cleaner/full_pass/promise",
    "s4d/run_file/image",
    "verifier/save/saved", "verifier/open/base", "verifier/round_trip/same", "verifier/round_trip/whole",
)
# The same claims but that of a pass, in the words of the model alone.
PROMISES = (
    "interleaving/run/model", "interleaving/run/past",
    "s4d/run_file/promise",
    "verifier/verify/promise", "verifier/open/promise", "verifier/save/promise", "verifier/round_trip/same",
)
# What the README claims of other commands: of `s4`, of a service, of `new` and of `migrate`.
COMMANDS = (
    "s4_restore/restore_image/restores", "s4_restore/restore_image/kept",
    "s4_compact/compact_image/compacts", "s4_compact/compact_image/tried", "s4_compact/compact_image/kept",
    "s4_folders/salvage_image/salvages",
    "s4serve/SessionOutput::send/owed", "s4serve/open_at/streams", "s4serve/serve_line/covered", "kept_drive/KeptReceipt::shows/", "kept_drive/KeptImage::flush/kept",
    "s4serve/serve_image/served",
    "image_commands/make_file/image", "image_commands/make_file/empty",
    "s4d/migrate_file/image", "migration/migrate/migrates",
)
# Of what these pass from one call to the next: what they come to together holds whatever it means. So nobody has to believe it.
PASSED_ON = {
    "verifier.IsReadOf": "verify ensures it of an image and its bytes, and open takes it",
    "verifier.TellsBase": "open and run_file ensure it of bytes and what a history begins with, and save and run_file take it",
    "verifier.begins_with": "open answers what begins so, and is named so",
}
# How many lines each may rest on.
CEILINGS = {"whole": 3_087, "promises": 1_028, "commands": 5_985}
WIDTH = 100
TOKEN = re.compile(r"[^\s(){}\[\],;:→λ×⊎≡&<>|]+")
ANTT_ITEM = re.compile(r"(  )?(?:abbrev pub|unfoldable pub|pub record|pub data|abbrev|unfoldable|record|data|pub) ([^\s(){}:]+)")
RUST_ITEM = re.compile(r"(?:pub(?:\([^)]*\))? )?(struct|enum|trait|const|type) (\w+)")
NO_COUNT = re.compile(r"$|--|//|#\[|(ghost |pub )?use |(pub )?mod ")


def block_end(lines, at):
    """The number after that of the line which closes what this one opens, or ends it by a semicolon."""
    depth = 0
    for number in range(at, len(lines)):
        text = re.sub(r"//.*", "", lines[number])
        depth += sum(text.count(letter) for letter in "{(") - sum(text.count(letter) for letter in "})")
        if depth == 0 and re.search(r"[};]\s*$", text):
            return number + 1
    return len(lines)


def imports(lines):
    """What the names mean that the `use` lines among these bring: of each a path, whose last part is the name."""
    scope = {}
    for found in re.findall(r"^ *(?:pub )?(?:ghost )?use ([^;{]+(?:\{[^}]*\})?)", "\n".join(lines), re.M):
        path, _, many = found.splitlines()[0].partition("{") if "{" not in found else found.partition("{")
        words = many.rstrip("}").split(",") if many else [path]
        front = re.split(r"\.|::", path.strip().rstrip(".:")) if many else []
        for word in words:
            name, _, alias = word.strip().partition(" as ")
            if name:
                steps = front + re.split(r"\.|::", name.strip())
                scope[alias.strip() or steps[-1]] = tuple(steps)
    return scope


class Item:
    """A definition: its file, name and lines, and what its names mean there."""

    def __init__(self, file, name, numbers, scope, generics=None, types=()):
        self.file, self.name, self.scope, self.generics, self.types = file, name, scope, generics or {}, types
        self.numbers = [number for number in numbers if not NO_COUNT.match(file.lines[number].strip())]
        self.key = (file.path, name)

    def text(self):
        return "\n".join(self.file.lines[number] for number in self.numbers)

    def weights(self):
        """What each of its lines counts; lines inside of an enum's variant count with the variant's, and a clause's together."""
        texts, last = {}, None
        is_enum = re.match(r"(pub(\([^)]*\))? )?enum", self.text())
        is_clause = re.match(r"\s*(ensures|requires)\b", self.text())
        for number in self.numbers:
            line = self.file.lines[number]
            if texts and (is_clause or is_enum and re.match(" {5}|    }", line)):
                texts[last] += (" " if is_clause else "") + line.strip()
            else:
                last = number
                texts[number] = line.strip()
        return {number: -(-len(text) // WIDTH) for number, text in texts.items()}

    def fields(self):
        """The lines of its fields by their names, where it is data with named fields: a record without parameters, or a struct."""
        lines = self.text().splitlines()
        if re.match(r"pub record \S+ : Type 0 where", lines[0]):
            form = r"  pub (\S+) :"
        elif re.match(r"(?:pub )?struct", lines[0]):
            form = r"    (?:pub(?:\(\w+\))? )?(?:ghost )?(\w+):"
        else:
            return {}
        return {found.group(1): line for line in lines[1:] if (found := re.match(form, line))}


class AnttFile:
    """A file of definitions."""

    def __init__(self, path):
        self.path, self.items = path, {}
        self.crate = path.relative_to(CRATES).parts[0]
        self.lines = path.read_text(encoding="utf-8").splitlines()
        self.scope = imports(line for line in self.lines if line.lstrip().startswith(("use", "pub use")))
        starts, module = [], None
        for number, line in enumerate(self.lines):
            module = number if line.startswith("module ") else module
            found = ANTT_ITEM.match(line)
            if found and not line.startswith("  pub ") or line.startswith(("  pub record ", "  pub data ")):
                starts.append((number, found.group(2), module if found.group(1) else None))
        for place, (number, name, inside) in enumerate(starts):
            end = starts[place + 1][0] if place + 1 < len(starts) else len(self.lines)
            numbers = [it for it in range(number, end) if not self.lines[it].startswith("module ")] + ([inside] if inside else [])
            self.items[name] = Item(self, name, numbers, self.scope)
        # A constructor means its type.
        self.parts = {part: name for name, item in self.items.items() if item.text().lstrip().startswith("pub data")
                      for part in re.findall(r"^ +(\w+) :", item.text(), re.M)}

    def find(self, name):
        return self.items.get(name) or self.items.get(self.parts.get(name))


class RustFile:
    """A source."""

    def __init__(self, path):
        self.path = path
        self.crate = path.relative_to(CRATES).parts[0]
        self.lines = path.read_text(encoding="utf-8").splitlines()
        self.scope = imports(self.lines)
        self.declared = {found.group(2): (found.group(1), number) for number, line in enumerate(self.lines) if (found := RUST_ITEM.match(line))}

    def find(self, name):
        """What contracts see of a type or a constant; None of a trait, or where it isn't here."""
        kind, number = self.declared.get(name, ("trait", None))
        if kind == "trait":
            return None
        for at, line in enumerate(self.lines):
            if re.match(rf"impl\b.*\bModel for {name}\b", line):
                end = block_end(self.lines, at)
                values = [it for it in range(at, end) if self.lines[it].strip().startswith("ghost Value")]
                return Item(self, name, values, self.scope | imports(self.lines[at:end]))
        return Item(self, name, range(number, block_end(self.lines, number)), self.scope)

    def part_of_trait(self, trait, name):
        """What a trait has for proofs alone under this name, or the bounds of its type of this name; else None."""
        _, number = self.declared[trait]
        end = block_end(self.lines, number)
        for at in range(number, end):
            if re.match(rf"\s*ghost {re.escape(name)}:", self.lines[at]):
                return Item(self, f"{trait}.{name}", range(at, block_end(self.lines, at)), self.scope | imports(self.lines[number:end]))
            found = re.match(rf"\s*type {name}\b(?:: ([^;]+))?;", self.lines[at])
            if found:
                return re.findall(r"\w+", found.group(1) or "")
        return None


@functools.cache
def file_at(path):
    return (AnttFile if path.suffix == ".antt" else RustFile)(path) if path.exists() else None


@functools.cache
def declaring(crate, name):
    """The source of a crate that declares a type, trait or constant; None where none does."""
    files = map(file_at, sorted((CRATES / crate / "src").rglob("*.rt")))
    return next((file for file in files if name in file.declared), None)


def definition(steps, home):
    """The definition that a path of names means, in a file of the crate `home`; None where it is the kit's."""
    if steps[0] != "Rattle":
        file = declaring(home if steps[0] in ("crate", "self", "super") else steps[0], steps[-1])
        return file and file.find(steps[-1])
    crate, steps = steps[1], steps[3:]
    if not (CRATES / crate).is_dir():
        return None
    if steps and steps[0] == "declared":
        names = [step for step in steps if step[0].isupper() and step not in ("TheVariants", "TheConstants")]
        files = [(declaring(crate, name), name) for name in names]
        return next((file.find(name) for file, name in files if file), None)
    for split in range(len(steps) - 1, 0, -1):
        file = file_at(CRATES / crate / "specs" / ("/".join(steps[:split]) + ".antt"))
        if file and file.find(steps[split]):
            return file.find(steps[split])
    return None


def parts_by_bounds(bounds, steps, file):
    """What `F.Reader.remaining` and its like mean, where these traits bound F."""
    for trait in bounds:
        path = file.scope.get(trait, ("crate", trait))
        home = declaring(file.crate if path[0] == "crate" else path[0], trait)
        part = home.part_of_trait(trait, steps[0]) if home and home.declared[trait][0] == "trait" else None
        if isinstance(part, Item):
            yield part
        elif part and len(steps) > 1:
            yield from parts_by_bounds(part, steps[1:], home)


def variables(text):
    """Names of variables in a definition: they mean no definition of the same name."""
    groups = re.findall(r"[({]([\w' ]+) :", text) + re.findall(r"λ ([^.]*)\.", text)
    return {name for group in groups for name in group.split()}


def named_in(item, text):
    """The definitions that this text of a definition names."""
    bound = variables(item.text())
    text = re.sub(r"\bpub [\w']+ :", "", text)
    # What `record { label = value }` labels is no name.
    text = re.sub(r"([{;,] *)[\w']+ = ", r"\1", text)
    for token in TOKEN.findall(text):
        head, *rest = token.strip(".").split(".")
        if head in bound and not (rest and rest[0][:1].isupper()):
            continue
        if head in item.scope:
            path = item.scope[head]
            yield definition(path + tuple(rest), item.file.crate) or definition(path, item.file.crate)
        else:
            yield item.file.find(head)
        if head in item.generics and rest:
            yield from parts_by_bounds(item.generics[head], rest, item.file)


def clause_of(word):
    """The clause that is written CRATE/FUNCTION/NAME."""
    crate, function, name = word.split("/")
    owner, _, function = function.rpartition("::")
    for path in sorted((CRATES / crate / "src").rglob("*.rt")):
        file, inside = file_at(path), ""
        for number, line in enumerate(file.lines):
            if re.match(r"(pub )?(impl|trait)\b", line) or line.startswith("}"):
                inside = line
            if not re.match(rf"\s*(?:pub )?fn {function}\b", line) or owner and not re.search(rf"\b{owner}\b", inside):
                continue
            for at in range(number + 1, len(file.lines)):
                if re.match(rf"\s*(ensures|requires) {name} ?\{{" if name else r"\s*(ensures|requires) \{", file.lines[at]):
                    return clause_at(file, word, number, at, inside)
                if re.match(r"\s*(pub )?fn |}", file.lines[at]):
                    break
    sys.exit(f"there is no clause {word}")


def bounds_of(text):
    """The traits that bound each type parameter of a list of these."""
    return {name: re.findall(r"\w+", bounds) for name, bounds in re.findall(r"\b([A-Z]\w*): ((?:[^,<>=]|<[^>]*>)+)", text)}


def part_of_result(kind, text):
    """What a clause of this text looks at of a result of this type: its value, its error, or all."""
    sides = re.match(r"\s*Result<((?:[^,<>]|<[^>]*>)+), (.*)>", kind)
    looks = {name[2:] for name in re.findall(r"\b(IfOk|OnOk|IfErr|OnErr|MatchResult) result\b", text)}
    return sides.group(1) if sides and looks == {"Ok"} else sides.group(2) if sides and looks == {"Err"} else kind


def clause_at(file, word, number, at, inside):
    """A clause with what its function's line says of type parameters, and with the types of the parameters that it names."""
    body = next(it for it in range(number, at + 1) if re.match(r"\s*(ensures|requires)\b", file.lines[it]))
    head, _, rest = " ".join(line.strip() for line in file.lines[number:body]).partition("(")
    taken, _, given = rest.rpartition("->") if "->" in rest else (rest, "", "")
    item = Item(file, word, range(at, block_end(file.lines, at)), file.scope, bounds_of(inside) | bounds_of(head))
    kinds = [kind for name, kind in re.findall(r"(\w+): ((?:[^,<>]|<[^>]*>)+)", taken) if re.search(rf"\b{name}\b", item.text())]
    kinds += [part_of_result(given, item.text())] if re.search(r"\bresult\b", item.text()) else []
    item.types = re.findall(r"\w+", " ".join(kinds))
    return item


class Reached:
    """All definitions that clauses rest on, each with the one that named it first."""

    def __init__(self, clauses, passed_on=()):
        self.ways, self.seen, self.queue = {}, set(), collections.deque()
        self.passed_on, self.left = passed_on, set()
        self.named, self.waiting = set(), collections.defaultdict(list)
        for clause in clauses:
            self.meet(clause, None)
        while self.queue:
            self.follow(self.queue.popleft())

    def meet(self, item, before):
        if not item or item.key in self.seen:
            return
        if f"{item.file.crate}.{item.name}" in self.passed_on:
            self.left.add(f"{item.file.crate}.{item.name}")
        else:
            self.seen.add(item.key)
            self.ways[item] = before
            self.queue.append(item)

    def follow(self, item):
        fields = item.fields()
        for name, line in fields.items():
            if name in self.named:
                self.read(item, line)
            else:
                self.waiting[name].append((item, line))
        for name in item.types:
            self.meet(definition(item.scope.get(name, ("crate", name)), item.file.crate), item)
        if not fields:
            self.read(item, item.text())
            self.name(re.findall(r"\.([a-z][\w']*)", item.text()) + re.findall(r"[{;,] *([a-z][\w']*) = ", item.text()))

    def name(self, fields):
        for name in fields:
            if name not in self.named:
                self.named.add(name)
                for item, line in self.waiting.pop(name, ()):
                    self.read(item, line)

    def read(self, item, text):
        for other in named_in(item, text):
            self.meet(other, item)

    def way_to(self, name):
        """One way from a clause to the definition of this name."""
        item = next((item for item in self.ways if item.name == name), None)
        while item:
            yield f"{item.name}    {item.file.path.relative_to(CRATES)}:{item.numbers[0] + 1}"
            item = self.ways[item]

    def counts(self):
        """What each file's lines count, and what each definition's do."""
        files, items = collections.defaultdict(dict), collections.defaultdict(list)
        for item in self.ways:
            weights = item.weights()
            files[item.file.path].update(weights)
            items[item.file.path].append((sum(weights.values()), item.name))
        return {path: (sum(weights.values()), items[path]) for path, weights in sorted(files.items())}


def print_counts(reached, with_items):
    """Prints what each file's lines count, and gives the sum."""
    counts = reached.counts()
    for path, (count, items) in counts.items():
        print(f"{count:6}  {path.relative_to(CRATES)}")
        for each, name in items if with_items else ():
            print(f"{each:14}  {name}")
    total = sum(count for count, _ in counts.values())
    print(f"{total:6}  lines")
    return total


def print_tables(with_items):
    """Prints the tables' counts, and gives the status: 1 where one is above its ceiling."""
    status = 0
    for name, table, passed_on in (("whole", WHOLE, ()), ("promises", PROMISES, PASSED_ON), ("commands", COMMANDS, ())):
        print(f"{name}: {' '.join(table)}")
        reached = Reached([clause_of(word) for word in table], passed_on)
        total = print_counts(reached, with_items)
        for word in passed_on:
            print(f"        {'not followed' if word in reached.left else 'NOT MET'}: {word}: {PASSED_ON[word]}")
            status |= word not in reached.left
        if total > CEILINGS[name]:
            print(f"more than {CEILINGS[name]}: a clause rests on more than it did")
            status = 1
    return status


def main():
    parser = argparse.ArgumentParser(description=__doc__, formatter_class=argparse.RawDescriptionHelpFormatter)
    parser.add_argument("--why", metavar="NAME", help="prints one way from a clause to the definition of this name")
    parser.add_argument("--items", action="store_true", help="prints each definition, too")
    parser.add_argument("clauses", nargs="*", metavar="CLAUSE")
    options = parser.parse_args()
    if not options.why and not options.clauses:
        return print_tables(options.items)
    reached = Reached([clause_of(word) for word in options.clauses or WHOLE + PROMISES + COMMANDS])
    if options.why:
        way = list(reached.way_to(options.why))
        print("\n".join(reversed(way)) or f"nothing rests on {options.why}")
        return int(not way)
    print_counts(reached, options.items)
    return 0


if __name__ == "__main__":
    sys.exit(main())
