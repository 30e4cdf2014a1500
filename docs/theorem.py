#!/usr/bin/env python3
"""Lists the definitions that the contracts of the calls of TOPS cite, directly or through others.

    docs/theorem.py             prints the list
    docs/theorem.py --check     ends with status 1 where docs/THEOREM.md has another list
    docs/theorem.py --write     puts the list into docs/THEOREM.md
    docs/theorem.py --why NAME  says what cites the definitions of this name

It begins at the `ensures` clauses of these calls and follows names through the `use` lines: to the
definitions of crates/*/specs, to the types of crates/*/src that these speak of (`specs.declared`),
and to the ghost members of traits. Names of other crates and of the standard library are listed by
module. A definition is comment lines, a head (`abbrev pub NAME`, `unfoldable pub NAME`, `pub record
NAME`, `pub data NAME`, or `pub NAME` of a lemma) and the lines up to the next head or empty line.
"""

import re
import sys
import textwrap
from collections import namedtuple
from pathlib import Path

ROOT = Path(__file__).resolve().parent.parent
CRATES = ROOT / "crates"
PAGE = ROOT / "docs" / "THEOREM.md"
BEGIN, END = "<!-- the list, by docs/theorem.py --write -->", "<!-- end of the list -->"
WIDTH = 100

# The calls, each by its crate, its file and its name.
TOPS = [("gg_cli", "src/top.rt", "gg_top"), ("gg_cli", "src/linked_top.rt", "force_top")]

# The groups in reading order, by crates, or by files where these don't stand with their crate.
GROUPS = [
    ("Texts", ["text_lines"]),
    ("Names", ["object_name"]),
    ("Thunks", ["thunk_codec"]),
    ("Store", ["blob_store", "reduction_cache"]),
    ("Files", ["file_tree"]),
    ("Evaluation", ["need_eval"]),
    ("Cards", ["tool_text", "tool_bin", "sandbox_run"]),
    ("Models", ["include_scan", "build_plan", "model_gcc", "model_binutils"]),
    ("Scripts", ["build_script"]),
    ("Links", ["job_wire", "worker_link", "lease_table", "force_core", "force_pool"]),
    ("Answer", ["gg_cli"]),
    ("Ends", ["object_name/specs/Causes.antt", "object_name/specs/Streams.antt",
              "object_name/src/sink.rt", "object_name/src/source.rt", "gg_cli/specs/InputText.antt",
              "gg_cli/specs/Comes.antt"]),
]

# A definition: where it stands, what it means, how many lines it has, and what is to be searched
# for names: its statements (the head, then the equations), and the heads of modules around it.
# `scope` says what the names stand for.
Definition = namedtuple("Definition", "crate file name line meaning size statements outer scope")

HEAD = re.compile(r"(?:(?:abbrev|unfoldable) pub|pub record|pub data|pub|abbrev|record|data) (\S+)")
LEMMA = re.compile(r"([^\s(){}\[\];,:=]+) : ")
USE = re.compile(r"(?m)^\s*(?:pub |ghost )?use Rattle\.(\S+?)(?:\.\{([^}]*)\}| as (\S+?));?$")
RUST_USE = re.compile(r"(?m)^use (\w+)(?:::\w+)*?::(?:\{([^}]*)\}|(\w+));")
TOKEN = re.compile(r'"(?:[^"\\]|\\.)*"|\[\]|[()\[\]{};,]|[^\s()\[\]{};,"]+')
OPEN, CLOSE = set("([{"), set(")]}")
CONSTRUCTORS = {"zero", "suc", "true", "false", "[]", "refl", "tt"}


def key_of(definition):
    return definition.crate, definition.file, definition.name


def indent_of(line):
    return len(line) - len(line.lstrip())


class Scope:
    """What names stand for in a file: a module and a name in it; no module for its own names."""

    def __init__(self, text):
        self.names, self.aliases = {}, {}
        for module, names, alias in USE.findall(text):
            for name in filter(None, map(str.strip, names.split(","))):
                original, _, here = name.partition(" as ")
                self.names[here or original] = (module, original)
            if alias:
                self.aliases[alias] = module


# The names that a statement cites


def tokens_of(text):
    text = re.sub(r"(?m)(^|\s)--( .*)?$", r"\1", text)
    return [token for token in TOKEN.findall(text) if not token.startswith('"')]


def annotated(tokens, opening):
    """The names that a bracket binds: those before its colon."""
    for at in range(opening + 1, len(tokens)):
        if tokens[at] == ":":
            return tokens[opening + 1:at]
        if tokens[at] in OPEN | CLOSE | {";", ","}:
            break
    return []


def binders_of(tokens):
    """The names that are bound by (x y : T), λ x y., x ←, let x =, and the patterns before ↦."""
    bound = set()
    for at, token in enumerate(tokens):
        if token in OPEN:
            bound.update(annotated(tokens, at))
        elif token == "λ":
            end = next(n for n in range(at, len(tokens)) if tokens[n].endswith("."))
            bound.update(name.rstrip(".") for name in tokens[at + 1:end + 1])
        elif token == "←":
            bound.add(tokens[at - 1])
        elif token == "let":
            bound.add(tokens[at + 1])
        elif token == "↦":
            begin = max(n for n in range(at) if tokens[n] in ("[", "|"))
            bound.update(tokens[begin + 1:at])
    return bound


def left_side(tokens):
    """What stands before the first `=` outside brackets: the patterns of an equation."""
    depth = 0
    for at, token in enumerate(tokens):
        depth += (token in OPEN) - (token in CLOSE)
        if token == "=" and depth == 0:
            return tokens[1:at]
    return []


def is_label(tokens, at):
    """Whether a token is the label of a field, `{ label = ..; label = .. }`."""
    return tokens[at + 1:at + 2] == ["="] and tokens[at - 1] in ("{", ";")


def steps_of(statement):
    """The steps of all `do` in a statement, but for the last of each."""
    lines = statement.split("\n")
    for at, line in enumerate(lines[:-1]):
        if re.search(r"\bdo$", line.rstrip()):
            steps = []
            for step in lines[at + 1:]:
                if indent_of(step) < indent_of(lines[at + 1]):
                    break
                if indent_of(step) == indent_of(lines[at + 1]):
                    steps.append(step)
            yield from steps[:-1]


def uses_operator(name, tokens, statement):
    """Whether all pieces of an operator are there; those of steps are there in each `do`, too."""
    if name == "◌>>=◌" and any("←" in step for step in steps_of(statement)):
        return True
    if name == "◌>>◌" and any("←" not in step for step in steps_of(statement)):
        return True
    return all(piece in tokens for piece in name.split("◌") if piece)


def is_constructor(token, scope):
    """Whether a name in a pattern is a constructor and no variable."""
    name = token.split(".")[0]
    upper = name in scope.names and name[:1].isupper()
    return name in scope.aliases or name in CONSTRUCTORS or upper


def targets_in(statement, scope, bound=frozenset(), is_head=True):
    """What a statement cites, as (module, name) pairs."""
    tokens = tokens_of(statement)
    patterns = [] if is_head else left_side(tokens)
    here = binders_of(tokens) | set(patterns)
    bound = bound | {name for name in here if not is_constructor(name, scope)}
    targets = [target for name, target in scope.names.items()
               if "◌" in name and uses_operator(name, tokens, statement)]
    for at, token in enumerate(tokens):
        name, _, member = token.partition(".")
        if name in scope.aliases and member:
            targets.append((scope.aliases[name], member.split(".")[0]))
        elif name in scope.names and name not in bound and not is_label(tokens, at):
            targets.append(scope.names[name])
    return targets


# Files of definitions


def blocks_of(lines):
    """The blocks between empty lines, each with the number of its first line."""
    block = []
    for number, line in enumerate(lines + [""], 1):
        if line.strip():
            block.append(line)
        elif block:
            yield number - len(block), block
            block = []


def is_module(line):
    return line.strip().startswith("module _ ")


def begins_part(line, lines):
    """Whether a line of a block begins another part than that of the lines before it."""
    if is_module(lines[0]):
        return True
    begins = line.strip().startswith("-- ") or HEAD.match(line.strip())
    return indent_of(line) <= indent_of(lines[0]) and bool(begins)


def parts_of(first, block):
    """The parts of a block, a head each, as (line number, comment, lines)."""
    comment, lines, number = [], [], first
    for here, line in enumerate(block, first):
        if lines and begins_part(line, lines):
            yield number, " ".join(comment), lines
            comment, lines = [], []
        text = line.strip()
        if text.startswith("-- ") and not lines:
            comment.append(text[3:])
        elif not text.startswith(("-- ", "infix")):
            number = number if lines else here
            lines.append(line)
    if lines:
        yield number, " ".join(comment), lines


def statements_of(lines):
    """A definition's head, and each of its equations."""
    statements = []
    for line in lines:
        if statements and indent_of(line) > indent_of(lines[0]):
            statements[-1] += "\n" + line
        else:
            statements.append(line)
    return statements


class SpecFile:
    """A file of specs: its first comment, and its definitions."""

    def __init__(self, crate, path):
        self.crate, self.path = crate, path
        text = (CRATES / crate / path).read_text()
        self.title = text.split("\nuse ")[0].replace("\n-- ", " ").removeprefix("-- ").strip()
        self.scope, self.definitions, self.constructors = Scope(text), {}, {}
        modules = []
        for first, block in blocks_of(text.split("\n")):
            for number, comment, lines in parts_of(first, block):
                if re.match(r"(pub )?(use|mod) ", lines[0]):
                    continue
                modules = [m for m in modules if indent_of(m[0]) < indent_of(lines[0])]
                if is_module(lines[0]):
                    modules.append((lines[0], comment))
                else:
                    self.define(number, comment, lines, modules)

    def define(self, number, comment, lines, modules):
        text = lines[0].strip()
        head = HEAD.match(text) or LEMMA.match(text)
        if head is None:
            raise SystemExit(f"{self.crate}/{self.path}:{number}: no head of a definition: {text}")
        name = head.group(1)
        meaning = comment or self.text_as_meaning(lines) or next((m[1] for m in modules[::-1]), "")
        self.definitions[name] = Definition(
            self.crate, self.path, name, number, meaning or "(no comment)", len(lines),
            statements_of(lines), tuple(m[0] for m in modules), self.scope)
        self.scope.names[name] = (None, name)
        if text.startswith("pub data"):
            for line in lines[1:]:
                constructor = line.strip().split(" : ")[0]
                self.constructors[constructor] = name
                self.scope.names[constructor] = (None, constructor)

    @staticmethod
    def text_as_meaning(lines):
        """The text of a short definition, which says what it is where there is no comment."""
        text = "; ".join(line.strip() for line in lines[1:])
        return f"`{text}`" if len(text) < WIDTH - 10 else ""


def doc_above(lines, at):
    """The doc comment above a line."""
    doc = []
    for line in reversed(lines[:at]):
        if line.strip().startswith("///"):
            doc.insert(0, line.strip()[3:].strip())
        elif not line.strip().startswith("#["):
            break
    return " ".join(doc)


def item_from(lines, at):
    """The lines of an item, up to the brace that closes it."""
    if lines[at].rstrip().endswith((";", "}")):
        return lines[at:at + 1]
    return lines[at:next(n for n in range(at, len(lines)) if lines[n] == "}") + 1]


class RustFile:
    """A file of src: types, as contracts see them, and ghost members of traits."""

    def __init__(self, crate, path):
        self.crate, self.path = crate, path
        text = (CRATES / crate / path).read_text()
        self.lines = text.split("\n")
        self.title = " ".join(line[4:] for line in self.lines if line.startswith("//! "))
        self.scope = Scope(text)
        self.crate_of = {}
        for of, many, one in RUST_USE.findall(text):
            for name in (many or one).split(","):
                self.crate_of[name.strip()] = crate if of == "crate" else of

    def first(self, pattern):
        return next((n for n, line in enumerate(self.lines) if re.match(pattern, line)), None)

    def type_named(self, name):
        """A type: its declaration, or, where contracts see it as another type, that type."""
        at = self.first(r"(pub(\(crate\))? )?(struct|enum) " + name + r"\b")
        if at is None:
            return None
        doc = doc_above(self.lines, at)
        model = self.first(r"impl.* Model for " + name + r"\b")
        if model is not None:
            value = next(v for v in item_from(self.lines, model) if "ghost Value" in v)
            seen = value.split("{", 1)[1].rsplit("}", 1)[0].strip()
            return self.item(name, at, f"{doc} Seen as `{seen}`.", 1, seen)
        code = [re.sub(r"///.*|#\[.*", "", line) for line in item_from(self.lines, at)]
        code = [line for line in code if line.strip()]
        return self.item(name, at, doc, len(code), "\n".join(code))

    def ghost_member(self, trait, member):
        at = self.first(r"pub trait " + trait + r"\b")
        if at is None:
            return None
        n = next((n for n in range(at, len(self.lines))
                  if re.match(r"\s*ghost " + member + ":", self.lines[n])), None)
        if n is None:
            return None
        type_of = self.lines[n].split(":", 1)[1].strip(" {};")
        return self.item(f"{trait}::{member}", n, doc_above(self.lines, n), 1, type_of)

    def item(self, name, at, meaning, size, statement):
        return Definition(self.crate, self.path, name, at + 1, meaning, size, [statement], (),
                          self.scope)


# The walk from the clauses


class Library:
    """All files, and what of other crates was cited."""

    def __init__(self):
        self.specs, self.rust, self.assumed, self.cited_by = {}, {}, {}, {}

    def spec_file(self, crate, path):
        if (crate, path) not in self.specs:
            there = (CRATES / crate / path).is_file()
            self.specs[crate, path] = SpecFile(crate, path) if there else None
        return self.specs[crate, path]

    def rust_file(self, crate, path):
        if (crate, path) not in self.rust:
            self.rust[crate, path] = RustFile(crate, path)
        return self.rust[crate, path]

    def find_in_src(self, crate, find):
        """What a search finds in the files of a crate's src, if it is a crate of ours."""
        for file in sorted((CRATES / crate / "src").rglob("*.rt")):
            found = find(self.rust_file(crate, str(file.relative_to(CRATES / crate))))
            if found:
                return found
        return None

    def resolve(self, module, name):
        """The definition that a name of a module stands for; None where it is assumed."""
        crate, _, rest = module.partition(".")
        if not (CRATES / crate).is_dir():
            self.assumed.setdefault(module, set()).add(name)
            return None
        parts = [part for part in rest.split(".") if part not in ("specs", "TheVariants")]
        if parts[0] == "declared":
            file = self.rust_file(crate, "/".join(["src", *parts[1:-1]]) + ".rt")
            found = file.type_named(parts[-1])
        else:
            found = self.in_specs(crate, parts, name)
        if found is None:
            raise SystemExit(f"{module}.{name} stands nowhere")
        return found

    def in_specs(self, crate, parts, name):
        file = self.spec_file(crate, "/".join(["specs", *parts]) + ".antt")
        if file is None:
            # constructors by their type: `FILE.TYPE.{NAME}`
            file = self.spec_file(crate, "/".join(["specs", *parts[:-1]]) + ".antt")
            return file and file.definitions.get(parts[-1])
        name = file.constructors.get(name, name)
        if name in file.definitions:
            return file.definitions[name]
        module, original = file.scope.names.get(name, (None, None))
        return self.resolve(module, original) if module else None

    def cited(self, definition):
        """The definitions that one cites."""
        if definition.file.startswith("src/"):
            return self.cited_by_type(definition)
        outer = " ".join(definition.outer)
        fields = set(re.findall(r"(?m)^\s+pub (\S+) :", "\n".join(definition.statements)))
        bound = binders_of(tokens_of(outer)) | fields
        targets = targets_in(outer, definition.scope)
        for place, statement in enumerate(definition.statements):
            targets += targets_in(statement, definition.scope, bound, place == 0)
        own = definition.crate + "." + definition.file.removesuffix(".antt").replace("/", ".")
        return [self.resolve(module or own, name) for module, name in targets]

    def cited_by_type(self, definition):
        """The definitions and the types of our crates that a type of src names."""
        file = self.rust_file(definition.crate, definition.file)
        found = [self.resolve(*t) for t in targets_in(definition.statements[0], file.scope)]
        for name in re.findall(r"\b[A-Z]\w+", definition.statements[0]):
            crate = file.crate_of.get(name, definition.crate)
            found.append(self.find_in_src(crate, lambda f: f.type_named(name)))
        return found

    def closure(self, roots):
        """The definitions that some cite, directly or through others, and these themselves."""
        found, todo = {}, list(roots)
        while todo:
            definition = todo.pop()
            if key_of(definition) in found:
                continue
            found[key_of(definition)] = definition
            for other in self.cited(definition):
                if other and key_of(other) != key_of(definition):
                    self.cited_by.setdefault(key_of(other), set()).add(key_of(definition))
                    todo.append(other)
        return found


def roots_of(library):
    """What the clauses of the calls cite."""
    return [root for top in TOPS for root in roots_of_call(library, *top)]


def roots_of_call(library, top_crate, top_file, function):
    """What the clauses of a call cite: definitions, types, ghost members of its parameters."""
    file = library.rust_file(top_crate, top_file)
    text = "\n".join(file.lines)
    text = text[text.index(f"pub fn {function}<"):]
    signature = re.sub(r"(?m)^\s*//.*$", "", text[:text.index("\n{\n")])
    traits = dict(re.findall(r"\b([A-Z]\w?): (\w+)", signature[:signature.index("ensures")]))
    roots = []
    for clause in re.findall(r"ensures \w+ \{(.*?)\}\s*(?=ensures|$)", signature, re.S):
        roots += [library.resolve(*target) for target in targets_in(clause, file.scope)]
        for name in re.findall(r"\b([A-Z]\w+)\.", clause):
            crate = file.crate_of[name]
            roots.append(library.find_in_src(crate, lambda f: f.type_named(name)))
        for parameter, member in re.findall(r"\b([A-Z])\.(\w+)", clause):
            trait = traits[parameter]
            crate = file.crate_of[trait]
            found = library.find_in_src(crate, lambda f: f.ghost_member(trait, member))
            # A link is a function: what isn't its own it has from there.
            found = found or library.find_in_src("thunk_codec", lambda f: f.ghost_member("Function", member))
            roots.append(found)
    return [root for root in roots if root]


# The list


def place_of(crate, file):
    """The group of a file, and its place there; a file's own place goes before its crate's."""
    for wanted in (crate + "/" + file, crate):
        for number, (_, members) in enumerate(GROUPS):
            if wanted in members:
                return number, members.index(wanted)
    raise SystemExit(f"no group has {crate}/{file}")


def files_in_order(library, found):
    """The files in reading order, each after those that it cites, where that can be."""
    cites = {}
    for cited, users in library.cited_by.items():
        for user in users:
            cites.setdefault(user[:2], set()).add(cited[:2])
    ordered = {}

    def visit(file):
        if file not in ordered and file not in begun:
            begun.add(file)
            for other in by_place(cites.get(file, set())):
                visit(other)
            ordered[file] = sorted((d for key, d in found.items() if key[:2] == file),
                                   key=lambda d: d.line)

    def by_place(files):
        return sorted(files, key=lambda file: (place_of(*file), file))

    begun = set()
    for file in by_place({key[:2] for key in found}):
        visit(file)
    return ordered


def wrapped(first, text):
    indent = "  " if first.startswith("- ") else ""
    return textwrap.fill(first + text, WIDTH, subsequent_indent=indent, break_long_words=False,
                         break_on_hyphens=False)


def totals(definitions):
    return f"{len(definitions)} definitions, {sum(d.size for d in definitions)} lines"


def listed(library, found):
    """The list, as lines."""
    files = files_in_order(library, found)
    out = [f"In all {totals(found.values())}.", ""]
    for number, (group, _) in enumerate(GROUPS):
        members = {file: ds for file, ds in files.items() if place_of(*file)[0] == number}
        out += [f"### {group}: {totals(sum(members.values(), []))}", ""]
        for (crate, path), definitions in members.items():
            is_spec = path.startswith("specs/")
            file = library.spec_file(crate, path) if is_spec else library.rust_file(crate, path)
            out += [wrapped(f"**{crate}** `{path}`: ", file.title), ""]
            out += [wrapped(f"- `{d.name}` ({d.size}): ", d.meaning) for d in definitions]
            out.append("")
    out += ["### Assumed: names of the standard library and of ported crates, by module", ""]
    for module, names in sorted(library.assumed.items()):
        out.append(wrapped(f"- {module}: ", ", ".join(f"`{name}`" for name in sorted(names))))
    return out


def main(arguments):
    library = Library()
    found = library.closure(roots_of(library))
    text = "\n" + "\n".join(listed(library, found)) + "\n\n"
    if not arguments:
        print(text.strip())
        return 0
    if arguments[0] == "--why":
        for key in sorted(key for key in found if key[2] == arguments[1]):
            users = sorted("/".join(user) for user in library.cited_by.get(key, [["gg_top"]]))
            print("/".join(key), "is cited by", *users)
        return 0
    page = PAGE.read_text()
    before, rest = page.split(BEGIN + "\n", 1)
    old, after = rest.split(END, 1)
    if arguments == ["--write"]:
        PAGE.write_text(before + BEGIN + "\n" + text + END + after)
    elif old != text:
        print("docs/THEOREM.md has another list; docs/theorem.py --write mends it", file=sys.stderr)
        return 1
    return 0


if __name__ == "__main__":
    sys.exit(main(sys.argv[1:]))
