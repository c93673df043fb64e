"""Reads the definitions of the crates: specs/*.antt, and of src/*.rt the types, traits, constants and contracts that
these name.

Every name is resolved by the imports of its own file. A name that is not found is an error with its file and line: see
`Unresolved`."""
import os
import re

# Words of the language itself, which no file imports.
BUILT_IN = set("""
Type Unit tt absurd ⊥ ¬ × → = : | ↦ λ · ∥ ∥₁ ∣ ∣₁ record where let in elim as if then else _
refl sym subst ap cong rw simp search cc omega grind
hlevel assumption first_of ← arith IsTrue IsProp IsSet Prim Level ℓ . open do pub
""".split())

# What a contract may say besides: the values of a call.
OF_A_CALL = {"result", "self", "Self"}

WORD = re.compile(r'"(?:[^"\\]|\\.)*"|\[\]|[(){}\[\];,]|[^\s(){}\[\];,"]+')


class Unresolved(Exception):
    """A name that is found nowhere, with its file and line."""


class Token:
    def __init__(self, text, line):
        self.text, self.line = text, line


class Item:
    """A definition: its place, its comment, its lines, and the statements whose names it needs. Of a lemma, which is
    one that nothing unfolds, only the statement is kept: its body is its proof."""

    def __init__(self, kind, name, source, first):
        self.kind, self.name, self.source, self.first = kind, name, source, first
        self.comment, self.lines, self.statements, self.own = [], [], [], set()
        self.needs, self.owner, self.renamed = None, None, {}
        self.constructors = set()

    @property
    def last(self):
        return self.first + len(self.lines) - 1

    def shown(self):
        """The lines that a reader needs: of a type with a model its value and what always holds of it, of a trait its
        ghost members."""
        if self.kind == "trait":
            return trait_lines(self.lines)
        model = self.source.models.get(self.name) if self.kind == "struct" else None
        lines = self.lines if model is None else [re.sub(r"\s*[{;].*$", " { .. }", self.lines[0])]
        return lines + [line for _, more in (model or []) + self.faces() for line in more]

    def faces(self):
        """What a type is by a trait that contracts speak of: its ghost members, as `deposits` of a `Keep`. Its proofs
        of the trait's laws are left out."""
        if self.kind not in ("struct", "enum"):
            return []
        members = self.source.house.members
        return [face for trait, name, face in self.source.faces.get(self.name, []) if name in members.get(trait, ())]

    def code_lines(self):
        """How many of the lines shown are neither a comment nor empty."""
        return sum(bool(line.strip()) and not is_comment(line) for line in self.shown())

    def comment_lines(self):
        return len(self.comment) + sum(is_comment(line) for line in self.shown())


def is_comment(line):
    return line.strip().startswith(("--", "//"))


def ghost_members(lines):
    """The ghost members `ghost name: { .. }` among the lines of a type or a trait: of each the place of its first line,
    and its lines."""
    place = 0
    while place < len(lines):
        last = place
        if re.match(r"\s+ghost \w+:", lines[place]):
            while sum(line.count("{") - line.count("}") for line in lines[place:last + 1]) > 0:
                last += 1
            yield place, lines[place:last + 1]
        place = last + 1


def trait_lines(lines):
    """Of a trait its head, its ghost members with the comments above them, and its end."""
    kept = [lines[0]]
    for place, member in ghost_members(lines):
        first = place
        while is_comment(lines[first - 1]):
            first -= 1
        kept += lines[first:place] + member
    return kept + [lines[-1]]


def tokens_of(lines, first):
    """The words of some lines, without comments and texts in quotes."""
    found = []
    for number, line in enumerate(lines, first):
        if is_comment(line):
            continue
        line = re.sub(r"\s--\s.*$", "", line)
        found += [Token(word, number) for word in WORD.findall(line) if not word.startswith('"')]
    return found


def imports_of(text):
    """What `PATH`, `PATH as alias`, `PATH.{a, b as c}` bring in: the name here, and the path with the name there."""
    brace = text.find("{")
    if brace < 0:
        path, _, alias = text.partition(" as ")
        path = path.strip().rstrip(";")
        yield (alias.strip() or path.rsplit(".", 1)[1]), path, None
        return
    path = text[:brace].strip().rstrip(".")
    for part in text[brace + 1:text.rfind("}")].split(","):
        there, _, here = part.strip().partition(" as ")
        if there:
            yield (here.strip() or there.strip()), path, there.strip()


class Source:
    """A file of definitions: what it imports, and what it defines."""

    def __init__(self, house, crate, path):
        self.house, self.crate, self.path = house, crate, path
        with open(os.path.join(house.root, path), encoding="utf-8") as file:
            self.lines = file.read().split("\n")
        self.imports, self.modules, self.items, self.exports, self.models, self.faces = {}, {}, {}, {}, {}, {}
        self.operators, self.rust_uses, self.functions = {}, {}, []

    def bring_in(self, text, line, exported=False):
        for here, path, there in imports_of(text):
            if there is None:
                self.modules[here] = (path, line)
                continue
            self.imports[here] = (path, there, line)
            if exported:
                self.exports[here] = (path, there, line)
            for part in here.split("◌"):
                if "◌" in here and part:
                    self.operators[part] = here

    def add(self, item):
        self.items.setdefault(item.name, item)
        for name in item.constructors:
            self.items.setdefault(name, item)
        for part in item.name.split("◌"):
            if "◌" in item.name and part:
                self.operators[part] = item.name

    def error(self, line, message):
        return Unresolved(f"{self.path}:{line}: {message}")


HEADS = re.compile(r"^(abbrev |unfoldable )?(?:pub )?(record |data )?(\S+)\s(?=.*)")


class AnttReader:
    """Cuts a file of specs/ into its definitions."""

    def __init__(self, source):
        self.source, self.base, self.item, self.comment = source, 0, None, []
        self.block = set()
        self.opening = None

    def read(self):
        number = 1
        lines = self.source.lines
        while number <= len(lines):
            end = self.statement_end(number)
            self.take(number, lines[number - 1:end])
            number = end + 1

    def statement_end(self, number):
        """The last line of the statement that begins here."""
        lines = self.source.lines
        line = lines[number - 1]
        if not line.strip() or is_comment(line):
            return number
        base = len(line) - len(line.lstrip())
        end = number
        while end < len(lines):
            following = lines[end]
            indent = len(following) - len(following.lstrip())
            if not following.strip() or not (indent > base or following.strip()[0] in "})"):
                break
            if line.startswith("module ") and not self.in_telescope(number, end):
                break
            end += 1
        while end > number and is_comment(lines[end - 1]):
            end -= 1
        return end

    def in_telescope(self, number, end):
        """The head of a block goes on to the line that ends with `where`."""
        return not self.source.lines[end - 1].rstrip().endswith("where")

    def take(self, number, lines):
        line = lines[0]
        indent = len(line) - len(line.lstrip())
        text = line.strip()
        if not text:
            self.comment = []
        elif is_comment(line):
            self.comment.append(line)
        else:
            if self.base and indent == 0:
                self.base, self.block = 0, set()
            if indent <= self.base:
                self.take_code(number, lines, text)
            elif self.item.kind != "lemma":
                raise self.source.error(number, "a definition goes on after an empty line")
            self.comment = []

    def take_code(self, number, lines, text):
        if text.startswith(("use ", "pub use ")):
            joined = " ".join(line.strip() for line in lines)
            self.source.bring_in(joined.removeprefix("pub ").removeprefix("use "), number, text.startswith("pub"))
        elif text.startswith("module "):
            self.base = 2
            self.block = binders(tokens_of(lines, number))
        elif not text.startswith(("pub mod ", "mod ", "infix")):
            self.take_definition(number, lines, text)

    def take_definition(self, number, lines, text):
        item = self.item
        if text.startswith("unfolding ") or (item and self.is_clause(item, lines, text)):
            if item.kind != "lemma":
                gap = number - (item.last + 1)
                item.lines += [""] * gap + lines
                item.statements.append(("clause", tokens_of(lines, number)))
            return
        found = HEADS.match(text + " ")
        kind = (found[2] or found[1] or "lemma").strip()
        self.item = item = Item(kind, found[3], self.source, number)
        item.comment, item.lines = self.comment, list(lines)
        item.own = set(self.block)
        tokens = tokens_of(lines, number)
        while tokens and tokens[0].text in ("abbrev", "unfoldable", "pub", "record", "data"):
            tokens.pop(0)
        item.statements.append((kind, tokens[1:]))
        if kind == "data":
            item.constructors = constructors(lines)
        if kind == "record":
            item.own |= fields(lines)
        self.source.add(item)

    @staticmethod
    def is_clause(item, lines, text):
        """A clause of the definition before it: it begins with its name, or has its operator on its left side."""
        words = WORD.findall(text)
        if words[0] in ("abbrev", "unfoldable", "pub", "record", "data"):
            return False
        if words[0] == item.name:
            return True
        parts = [part for part in item.name.split("◌") if part]
        return "◌" in item.name and any(part in words for part in parts)


def fields(lines):
    return {m[1] for line in lines[1:] if (m := re.match(r"\s+pub (\S+) :", line))}


def constructors(lines):
    indents = [len(line) - len(line.lstrip()) for line in lines[1:] if re.match(r"\s+\S+ :", line)]
    least = min(indents, default=0)
    return {m[1] for line in lines[1:] if (m := re.match(r"\s{%d}(\S+) :" % least, line))}


def binders(tokens):
    """The names that `(a b : T)`, `{a b : T}`, `λ a b.`, `λ (a, b).`, `let a` and `a ← e` bind."""
    bound = set()
    place = 0
    while place < len(tokens):
        text = tokens[place].text
        if text in "({" and (group := group_names(tokens, place + 1)):
            bound |= set(group)
        elif text == "λ":
            bound |= lambda_names(tokens, place + 1)
        elif text == "let" and place + 1 < len(tokens):
            bound.add(tokens[place + 1].text)
        elif text == "←":
            bound.add(tokens[place - 1].text)
        place += 1
    return bound


def group_names(tokens, place):
    names = []
    while place < len(tokens) and re.match(r"^[^\W\d][\w'+₀-₉-]*$|^_$", tokens[place].text):
        names.append(tokens[place].text)
        place += 1
    return names if names and place < len(tokens) and tokens[place].text == ":" else []


def lambda_names(tokens, place):
    names = set()
    while place < len(tokens) and not tokens[place].text.endswith((".", ":")):
        names.add(tokens[place].text)
        place += 1
    if place < len(tokens):
        names.add(tokens[place].text.rstrip("."))
    return names - set("(){},:") - {""}


class RustReader:
    """Of a file of src/: its types, traits, constants and functions with their contracts."""

    def __init__(self, source):
        self.source = source
        self.uses, self.functions = source.rust_uses, source.functions
        self.models = source.models

    def read(self):
        text = "\n".join(self.source.lines)
        for match in re.finditer(r"^( *)(pub )?ghost use ([^;]*);", text, re.M):
            line = text.count("\n", 0, match.start()) + 1
            self.source.bring_in(" ".join(match[3].split()), line)
        for match in re.finditer(r"^ *(?:pub(?:\(crate\))? )?use ([^;]*);", text, re.M):
            self.uses.update(rust_imports(" ".join(match[1].split())))
        self.read_items()

    def read_items(self):
        lines = self.source.lines
        owner = None
        for number, line in enumerate(lines, 1):
            if found := re.match(r"^(?:pub(?:\(crate\))? )?(struct|enum|trait|const|type) (\w+)", line):
                self.add_type(found[1], found[2], number)
            if found := re.match(r"^impl(?:<.*?>)? (?:([\w:]+)(?:<[^{]*?>)? for )?([\w:]+)", line):
                owner = found[2].rsplit("::", 1)[-1]
                if found[1] == "Model":
                    ghosts = self.ghost_lines(number)
                    self.models[owner] = [face for name, face in ghosts if name in ("Value", "invariant")]
                elif found[1]:
                    faces = [(found[1], name, face) for name, face in self.ghost_lines(number)]
                    self.source.faces.setdefault(owner, []).extend(faces)
            elif found := re.match(r"^(pub )?(?:pub\(crate\) )?trait (\w+)", line):
                owner = found[2]
                if found[1]:
                    text = "\n".join(lines[number - 1:self.block_end(number)])
                    self.source.house.members[owner] = set(re.findall(r"ghost (\w+): \{ Self →", text))
            elif line == "}":
                owner = None
            if found := re.match(r"^( *)(?:pub(?:\(crate\))? )?fn (\w+)", line):
                self.add_function(found[2], owner if found[1] else None, number)

    def block_end(self, number):
        """The line on which the item that begins here is closed."""
        lines = self.source.lines
        depth = 0
        for end in range(number, len(lines) + 1):
            line = re.sub(r'"(?:[^"\\]|\\.)*"', "", lines[end - 1])
            depth += sum(map(line.count, "{([")) - sum(map(line.count, "})]"))
            if depth == 0 and re.search(r"[;}]\s*$", line):
                return end
        raise self.source.error(number, "this item has no end")

    def comment_above(self, number):
        comment = []
        while number > 1 and re.match(r"\s*(///|//|#\[)", self.source.lines[number - 2]):
            number -= 1
            comment.insert(0, self.source.lines[number - 1])
        return [line for line in comment if not line.strip().startswith("#[")]

    def add_type(self, kind, name, number):
        item = Item(kind, name, self.source, number)
        item.comment = self.comment_above(number)
        item.lines = self.source.lines[number - 1:self.block_end(number)]
        if kind == "const" and len(item.lines) > 3:
            item.lines = [item.lines[0] + " ..", *item.lines[-1:]]
        self.source.add(item)

    def ghost_lines(self, number):
        """The ghost members of an `impl`: of each its name, its first line and its lines."""
        end, place = self.block_end(number), number
        while place <= end:
            if found := re.match(r"\s+ghost (\w+) =", self.source.lines[place - 1]):
                last = self.block_end(place)
                yield found[1], (place, self.source.lines[place - 1:last])
                place = last
            place += 1

    def add_function(self, name, owner, number):
        item = Item("contract", f"{owner}::{name}" if owner else name, self.source, number)
        item.comment = self.comment_above(number)
        lines = self.source.lines
        indent = len(lines[number - 1]) - len(lines[number - 1].lstrip())
        end = number
        closed = re.compile(r"^ {%d}[{}]|[^}] \{$|;$|\{\}$" % indent)
        while not closed.search(lines[end - 1]):
            end += 1
        last = lines[end - 1].strip()
        item.lines = lines[number - 1:end - 1] if last.startswith("{") else lines[number - 1:end]
        item.owner = owner
        self.functions.append(item)


def rust_imports(text):
    """The names that a `use` of Rust brings in, each with the crate that it comes from."""
    crate = text.split("::", 1)[0].strip()
    names = re.findall(r"(\w+)(?: as (\w+))?(?=[,}]|$)", text)
    return {(alias or name): (crate, name) for name, alias in names}


class House:
    """All crates, from the bottom up."""

    def __init__(self, root):
        self.root = root
        with open(os.path.join(root, "crates.txt"), encoding="utf-8") as file:
            self.crates = [line.split(":")[0] for line in file if line.strip() and not line.startswith("#")]
        self.specs, self.rust, self.order = {}, {}, {}
        self.members = {"Read": {"remaining"}, "Write": {"contents"}}
        for crate in self.crates:
            self.read_crate(crate)

    def read_crate(self, crate):
        folder = f"crates/{crate}/specs"
        for module in self.modules_of(folder):
            source = Source(self, crate, f"{folder}/{module.replace('.', '/')}.antt")
            AnttReader(source).read()
            self.specs[crate, module] = source
        for folder, _, names in sorted(os.walk(os.path.join(self.root, f"crates/{crate}/src"))):
            for name in sorted(names):
                path = os.path.relpath(os.path.join(folder, name), self.root)
                if name.endswith(".rt") and "tests" not in path.replace(".rt", "").split("/"):
                    source = Source(self, crate, path)
                    RustReader(source).read()
                    self.rust[crate, path.split("/src/")[1].removesuffix(".rt").replace("/", ".")] = source

    def modules_of(self, folder, inside=""):
        """The modules of a crate's definitions, in the order in which Lib.antt and the files of folders name them; a
        crate may have none."""
        path = os.path.join(self.root, folder, f"{inside.replace('.', '/') or 'Lib'}.antt")
        if not os.path.exists(path):
            return []
        with open(path, encoding="utf-8") as file:
            names = [f"{inside}.{name}".lstrip(".") for name in re.findall(r"^pub mod (\w+)$", file.read(), re.M)]
        return [module for name in names for module in (name, *self.modules_of(folder, name))]

    # ---- what a name stands for

    def type_in(self, crate, name):
        """The type of this name that a crate declares."""
        sources = [source for (owner, _), source in self.rust.items() if owner == crate]
        found = [source.items[name] for source in sources if name in source.items]
        return found[0] if found else None

    def find(self, source, line, path, name):
        """What an import names: a definition of the house, or None for one of the kit, which also makes the modules
        `specs.contracts` of each crate."""
        words = path.split(".")
        if words[0] == "denote" or words[2:4] == ["specs", "contracts"]:
            return None
        if words[0] != "Rattle":
            raise source.error(line, f"{path} is no path of Rattle")
        if words[1] not in self.crates:
            return None
        if words[2] != "specs":
            return None
        item = self.declared(words, name) if words[3] == "declared" else self.defined(words, name)
        if item is None:
            raise source.error(line, f"{path}.{name} is not found")
        return item

    def defined(self, words, name):
        module = self.specs.get((words[1], ".".join(words[3:])))
        if module is None and len(words) > 4:
            module, name = self.specs.get((words[1], ".".join(words[3:-1]))), words[-1]
        if module is None:
            return None
        if name in module.exports:
            path, there, line = module.exports[name]
            return self.find(module, line, path, there)
        return module.items.get(name)

    def declared(self, words, name):
        rest = [word for word in words[4:] if word != "TheVariants"]
        if rest[-1] == "TheConstants":
            module = self.rust.get((words[1], ".".join(rest[:-1]) or "lib")) or self.rust.get((words[1], "main"))
            return module.items.get(name) if module else None
        module = self.rust.get((words[1], ".".join(rest[:-1])))
        item = module.items.get(rest[-1]) if module else None
        if item and words[-1] == "TheVariants":
            variant = re.compile(rf"(^\s+|[{{,] ){name}\b")
            return item if any(variant.search(line) for line in item.lines if not is_comment(line)) else None
        return item

    # ---- what a definition needs

    def needs(self, item):
        """The definitions that an item names, in the order in which it names them; and what the kit gives it."""
        if item.needs is None:
            namer = Namer(self, item)
            item.needs, item.renamed = namer.run(), namer.renamed
        return item.needs

    def functions(self, crate):
        for (owner, module), source in self.rust.items():
            if owner == crate:
                for item in source.functions:
                    yield module, item


CONSTRUCTORS = {"true", "false", "zero", "suc", "pos", "negsuc", "tt"}


class Namer:
    """Resolves the names of one item."""

    def __init__(self, house, item):
        self.house, self.item, self.source = house, item, item.source
        self.found, self.kit, self.bound, self.renamed = [], [], set(), {}

    def run(self):
        if self.source.path.endswith(".antt"):
            for kind, tokens in self.item.statements:
                self.statement(kind, tokens)
        else:
            self.rust_item()
        return self.found, self.kit

    def statement(self, kind, tokens):
        bound = self.item.own | binders(tokens)
        if kind == "clause":
            cut = equals_at(tokens)
            left, tokens = tokens[:cut], tokens[cut + 1:]
            bound |= self.patterns(left)
        bound |= self.cases(tokens)
        self.words(tokens, bound)

    def patterns(self, tokens):
        """The variables of patterns; their constructors are needed. The name that is defined is no variable."""
        bound = set()
        for token in tokens:
            word = token.text
            if word in "(){}[],;" or word == "[]" or word == "_" or re.match(r"^\d", word) or word == "=":
                continue
            head, _, rest = word.partition(".")
            if head == self.item.name or head in self.source.operators or word in BUILT_IN:
                continue
            if self.is_constructor(head, rest):
                self.name(token, head, rest)
            else:
                bound.add(head)
        return bound

    def is_constructor(self, head, rest):
        if head in self.source.modules:
            return bool(rest)
        if head in self.source.imports:
            path, there, line = self.source.imports[head]
            if path.endswith(".TheVariants") or there in CONSTRUCTORS:
                return True
            target = self.house.find(self.source, line, path, there)
            return there[:1].isupper() if target is None else there in target.constructors
        item = self.source.items.get(head)
        return item is not None and head in item.constructors

    def cases(self, tokens):
        """The variables of the cases of an `elim`: `[ pattern ↦ .. | pattern ↦ .. ]`."""
        bound, start = set(), None
        for place, token in enumerate(tokens):
            if token.text in ("[", "|"):
                start = place + 1
            elif token.text == "↦" and start is not None:
                bound |= self.patterns(tokens[start:place])
                start = None
        return bound

    def words(self, tokens, bound):
        for place, token in enumerate(tokens):
            word = token.text.rstrip(".") if len(token.text) > 1 else token.text
            if not word or word.startswith(".") or word in "(){}[],;" or re.match(r"^-?\d", word) or word == "[]":
                if word == "[]":
                    self.name(token, "[]", "")
                continue
            head, _, rest = word.partition(".")
            following = tokens[place + 1].text if place + 1 < len(tokens) else ""
            is_own = head in self.source.items or head in self.source.imports
            if head in bound or (head in BUILT_IN and not is_own) or (following == "=" and not rest):
                continue
            self.name(token, head, rest)

    def name(self, token, head, rest):
        source = self.source
        if head in source.items and source.items[head].kind != "contract":
            self.need(source.items[head])
        elif head in source.imports:
            path, there, line = source.imports[head]
            self.rename(head, there, path)
            self.need(self.house.find(source, line, path, there), (path, there))
        elif head in source.modules:
            path, line = source.modules[head]
            there = rest.partition(".")[0]
            *_, of, last = path.split(".")
            self.rename(head, f"the variants of {of}" if last == "TheVariants" else last, path)
            self.need(self.house.find(source, token.line, path, there), (path, there))
        elif head in source.operators:
            self.name(token, source.operators[head], rest)
        elif not self.rust_name(head) and head not in ("Some", "None", "Ok", "Err"):
            raise source.error(token.line, f"{head} is found nowhere")

    def rename(self, here, there, path):
        """Notes a name that an import gives to what has another name where it is defined."""
        if here != there:
            self.renamed[here] = f"{there} of {path.split('.')[1]}"

    def need(self, item, kit=None):
        if item is None:
            if kit not in self.kit:
                self.kit.append(kit)
        elif item is not self.item and item not in self.found:
            self.found.append(item)

    # ---- items of src/

    def rust_item(self):
        item = self.item
        self.bound = set(OF_A_CALL)
        if item.kind == "contract":
            self.contract()
        elif item.kind == "trait":
            self.trait_members()
        elif item.kind in ("struct", "enum", "type"):
            model = self.source.models.get(item.name)
            self.bound |= self.generics(item.lines[:1])
            if model is None:
                self.type_lines(item.lines, item.first)
            for first, lines in (model or []) + item.faces():
                self.bound |= self.generics(self.impl_head(first))
                self.ghost_text(lines, first)

    def generics(self, lines):
        """The type parameters of an item, which stand for themselves."""
        text = " ".join(lines)
        found = re.search(r"(?:\b(?:fn|struct|enum|trait|type) \w+|\bimpl)<", text)
        if not found:
            return set()
        depth, place = 1, found.end()
        while depth and place < len(text):
            depth += (text[place] == "<") - (text[place] == ">" and text[place - 1] != "-")
            place += 1
        inner = re.sub(r"<[^<>]*>", "", text[found.end():place - 1])
        return {re.split(r"[:\s]", part.strip())[0].removeprefix("'") for part in inner.split(",")}

    def impl_head(self, number):
        """The head of the block that a line is in."""
        for place in range(number, 0, -1):
            line = self.source.lines[place - 1]
            if re.match(r"^(impl|(pub(\(crate\))? )?trait)\b", line):
                return [line]
        return []

    def contract(self):
        item = self.item
        head = self.impl_head(item.first) if item.owner else []
        texts, clauses = split_clauses(item.lines, item.first)
        self.bound |= self.generics(head) | self.generics([line for _, line in texts])
        self.bound |= set(re.findall(r"(\w+)\s*:", " ".join(line for _, line in texts)))
        if item.owner and (owner := self.source.items.get(item.owner)):
            self.need(owner)
            self.bound |= set(re.findall(r"ghost (\w+):", " ".join(owner.lines))) if owner.kind == "trait" else set()
        for line in head:
            self.rust_types(line)
        for _, line in texts:
            self.rust_types(line)
        for number, lines in clauses:
            self.ghost_text(lines, number)
        self.trait_contract(head)

    def trait_contract(self, head):
        """A call of a trait of the house is promised by the trait too."""
        for line in head:
            if (found := re.match(r"^impl(?:<.*?>)? (\w+)(?:<[^{]*?>)? for ", line)) and found[1] in self.house.members:
                name = f"{found[1]}::{self.item.name.rsplit('::', 1)[-1]}"
                for crate in self.house.crates:
                    for _, item in self.house.functions(crate):
                        if item.name == name:
                            self.need(item)

    def ghost_text(self, lines, first):
        """A clause, or a ghost member: `ensures name { .. }`, `ghost name: { .. }`, `ghost name = { .. }`."""
        lines = [re.sub(r"^\s*(requires|ensures|ghost)\b[^{]*\{", "{", line) for line in lines]
        tokens = tokens_of(lines, first)
        self.words(tokens, self.bound | binders(tokens) | self.cases(tokens))

    def trait_members(self):
        """The ghost members and the laws of a trait; what its calls promise is each call's own contract."""
        members = list(ghost_members(self.item.lines))
        self.bound |= self.generics(self.item.lines[:1])
        self.bound |= {re.match(r"\s+ghost (\w+):", lines[0])[1] for _, lines in members}
        for place, lines in members:
            self.ghost_text(lines, self.item.first + place)

    def type_lines(self, lines, first):
        """The fields of a type that contracts see as it is declared; what always holds of them; the types of these."""
        self.bound |= self.generics(lines[:1])
        self.bound |= {m[1] for line in lines if (m := re.match(r"\s+(?:pub(?:\(crate\))? )?(\w+):", line))}
        ghosts = dict(ghost_members(lines))
        inside = {place + more for place, member in ghosts.items() for more in range(len(member))}
        for place, line in enumerate(lines):
            if place in ghosts:
                self.ghost_text(ghosts[place], first + place)
            elif place not in inside and not is_comment(line):
                self.rust_types(line)

    def rust_types(self, line):
        for name in re.findall(r"\b[A-Z]\w*", re.sub(r'"[^"]*"', "", line)):
            if name not in self.bound:
                self.rust_name(name)

    def rust_name(self, name):
        """A type by Rust's own imports. Whether it is one."""
        if name in self.bound:
            return True
        if name in self.source.items:
            self.need(self.source.items[name])
            return True
        if name not in self.source.rust_uses:
            return False
        crate, there = self.source.rust_uses[name]
        crate = self.source.crate if crate in ("crate", "super", "self") else crate
        if crate in self.house.crates:
            item = self.house.type_in(crate, there)
            if item is not None:
                self.need(item)
        return True


def equals_at(tokens):
    depth = 0
    for place, token in enumerate(tokens):
        depth += (token.text in "({[") - (token.text in ")}]")
        if token.text == "=" and depth == 0:
            return place
    return len(tokens)


def split_clauses(lines, first):
    """The lines of a signature with their numbers, and its clauses, each with the number of its first line."""
    texts, clauses = [], []
    for number, line in enumerate(lines, first):
        if re.match(r"\s+(requires|ensures)\b", line):
            clauses.append((number, [line]))
        elif clauses:
            clauses[-1][1].append(line)
        else:
            texts.append((number, line))
    return texts, clauses
