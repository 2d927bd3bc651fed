"""Reads the sources of the crates: the public calls of src/ with their contracts, and the declarations of specs/ and proofs/.

It knows the forms that stand in this repository, and no more of the language. `tools/list_promises`, `tools/change_note`
and `tools/sizes` read by it; each takes the folder at which a repository begins, so that two commits can be compared.
"""
import re
from dataclasses import dataclass, field
from pathlib import Path

# text that may hold a bracket or a keyword and is no code
NO_CODE = re.compile(r'//[^\n]*|b?"(?:\\.|[^"\\])*"|b?\'(?:\\.|[^\'\\])\'')
WORD = re.compile(r"(?<![\w.])[A-Za-z_]\w*")


def blanked(text):
    """The text with comments, strings and letters made blank, each line where it was."""
    return NO_CODE.sub(lambda m: re.sub(r"[^\n]", " ", m.group()), text)


def closing(text, start):
    """The place behind the bracket that closes the one at `start`."""
    pairs = {"{": "}", "(": ")", "[": "]"}
    opened, closed, depth = text[start], pairs[text[start]], 0
    for at in range(start, len(text)):
        depth += (text[at] == opened) - (text[at] == closed)
        if not depth:
            return at + 1
    raise ValueError(f"a {opened} is not closed")


def after_angles(text, at):
    """The place behind the angle brackets at `at`, if there are any; an arrow's > closes none."""
    if text[at:at + 1] != "<":
        return at
    depth = 0
    for place in range(at, len(text)):
        depth += (text[place] == "<") - (text[place] == ">" and text[place - 1] != "-")
        if not depth:
            return place + 1
    raise ValueError("a < is not closed")


@dataclass
class Function:
    name: str
    seen: str            # "pub", "pub(crate)" and so on, or nothing
    line: int
    lines: int
    parameters: list
    clauses: list        # pairs of "requires" or "ensures" and the text of the clause


@dataclass
class Item:
    kind: str            # struct, enum, trait, type, const, impl, fn
    name: str
    seen: str
    of: str = ""         # of an impl: its trait, if it has one
    functions: list = field(default_factory=list)
    ghosts: dict = field(default_factory=dict)   # its ghost members, each with its text


@dataclass
class Module:
    path: tuple
    file: Path
    seen: str
    items: list = field(default_factory=list)
    children: dict = field(default_factory=dict)
    uses: list = field(default_factory=list)     # pairs of a path and the name that it is re-exported as
    imports: dict = field(default_factory=dict)  # what it brings of specs/: each name, with the file and the name that it stands for


@dataclass
class Call:
    crate: str
    name: str
    where: str
    cites: dict          # the files of specs/, each with the names that the contract takes from it
    requires: list
    ensures: list
    is_fn: bool = True


def imported(text):
    """What the lines `use` and `ghost use` bring of some crate's specs/, but for the library's and for the types of src/."""
    found = {}
    for path, names in re.findall(r"^ *(?:ghost )?use ([\w.]+)\.\{([^}]*)\}", text, re.M):
        parts = path.split(".")
        if parts[1:2] != ["std"] and parts[2:3] == ["specs"] and "declared" not in parts:
            for name in names.split(","):
                origin, _, alias = name.strip().partition(" as ")
                found[alias or origin] = (f"{parts[1]}/specs/{'/'.join(parts[3:])}", origin)
    return found


def function_at(text, code, match):
    """The function that begins at this match, and the place behind it."""
    at = after_angles(code, match.end())
    end = closing(code, at)
    parameters = re.findall(r"(\w+)\s*:(?!:)", code[at:end])
    clauses, place = [], end
    while found := re.compile(r"\b(requires|ensures)\b\*?\s*\w*\s*(?=\{)|\[|[{;]").search(code, place):
        if found.group() in "{;":
            break
        start = found.end() if found[1] else found.start()
        place = closing(code, start)
        if found[1]:
            clauses.append((found[1], text[start + 1:place - 1].strip()))
    stop = closing(code, found.start()) if found.group() == "{" else found.end()
    lines = code.count("\n", match.start(), stop) + 1
    line = code.count("\n", 0, match.start()) + 1
    return Function(match["name"], (match["seen"] or "").strip(), line, lines, parameters, clauses), stop


FUNCTION = re.compile(r"(?P<seen>pub(?:\(\w+\))?\s+)?(?:const\s+)?fn (?P<name>\w+)")
HEAD = re.compile(
    r"(?P<test>#\[(?:cfg\(test\)|test)\]\s*)?(?P<seen>pub(?:\(\w+\))?\s+)?"
    r"(?:(?P<kind>mod|struct|enum|trait|type|const|use) (?P<name>\w+)|(?P<impl>impl)\b|(?:const )?(?P<fn>fn) \w+)"
)


def functions(file):
    """All functions of a file of src/, tests too."""
    text = file.read_text(encoding="utf-8")
    code, at = blanked(text), 0
    while found := FUNCTION.search(code, at):
        function, at = function_at(text, code, found)
        yield function


def members(text, code, start, end, item):
    """Fills in the functions and the ghost members between two places."""
    at = start
    while found := re.compile(r"\bghost (?!use\b)(?P<ghost>\w+)|" + FUNCTION.pattern).search(code, at, end):
        if found["ghost"]:
            begin = code.index("{", found.end())
            at = closing(code, begin)
            item.ghosts[found["ghost"]] = text[begin + 1:at - 1].strip()
        else:
            function, at = function_at(text, code, found)
            item.functions.append(function)


def exported(code, start):
    """The paths of a `pub use`, each with the name that it is known by then."""
    path, _, names = re.sub(r"\s+", "", code[start:code.index(";", start)].replace(" as ", "=")).partition("{")
    for name in names.rstrip("}").split(",") if names else [path]:
        whole, _, alias = ((path if names else "") + name).partition("=")
        if name:
            parts = whole.split("::")
            yield [it for it in parts if it not in ("crate", "self")], alias or parts[-1]


def read_module(path, file, seen):
    text = file.read_text(encoding="utf-8")
    code, module, at = blanked(text), Module(path, file, seen), 0
    module.imports = imported(text)
    while found := HEAD.search(code, at):
        kind = found["kind"] or found["impl"] or found["fn"]
        own = (found["seen"] or "").strip()
        brace, end = code.find("{", found.end()), code.find(";", found.end())
        if kind == "fn":
            function, at = function_at(text, code, FUNCTION.search(code, found.start()))
            if not found["test"]:
                module.items.append(Item("fn", function.name, own, functions=[function]))
        elif kind == "use":
            at = code.index(";", found.start()) + 1
            if own == "pub":
                module.uses += exported(code, code.index("use ", found.start()) + 4)
        elif kind == "mod" and not 0 <= brace < end:
            at = end + 1
            below = file.parent if file.stem in ("lib", "main") else file.parent / file.stem
            if not found["test"]:
                module.children[found["name"]] = read_module((*path, found["name"]), below / f"{found['name']}.rt", own)
        elif kind in ("impl", "trait"):
            head = code[after_angles(code, found.end()) if kind == "impl" else found.end():brace]
            first, _, second = head.partition(" for ")
            item = Item(kind, found["name"] if kind == "trait" else re.match(r"\s*([\w:]+)", second or first)[1], own)
            item.of = first.strip() if second else ""
            at = closing(code, brace)
            members(text, code, brace + 1, at - 1, item)
            module.items.append(item)
        else:
            at = closing(code, brace) if kind in ("struct", "enum") and 0 <= brace < (end if end >= 0 else brace + 1) else end + 1
            module.items.append(Item(kind, found["name"], own))
    return module


def modules_of(module):
    yield module
    for child in module.children.values():
        yield from modules_of(child)


def resolved(root, module, path):
    """The module in which the item that a path names stands, from `module` or from the root."""
    for start in (module, root):
        here = start
        for part in path[:-1]:
            here = here.children.get(part) if here else None
        if here:
            return here
    return None


def reachable(root):
    """The names of items that other crates can name, as pairs of the module's path and the item's name."""
    found, waiting = set(), [root]
    while waiting:
        module = waiting.pop()
        found |= {(module.path, item.name) for item in module.items if item.seen == "pub"}
        found |= {(where.path, path[-1]) for path, _ in module.uses if (where := resolved(root, module, path))}
        waiting += [child for child in module.children.values() if child.seen == "pub"]
    return found


def cited(imports, texts, parameters=()):
    """Which definitions these clauses name, by the file that they stand in."""
    files = {}
    for text in texts:
        bound = set(parameters) | set(re.findall(r"\w+", " ".join(re.findall(r"λ([^.]*)\.", text))))
        for word in WORD.findall(text):
            if word in imports and word not in bound:
                file, origin = imports[word]
                files.setdefault(file, [])
                files[file] += [origin] * (origin not in files[file])
    return files


def call_of(crate, module, name, function):
    ensures = [text for kind, text in function.clauses if kind == "ensures"]
    requires = [text for kind, text in function.clauses if kind == "requires"]
    return Call(crate, name, f"{module.file}:{function.line}", cited(module.imports, ensures, function.parameters), requires, ensures)


def laws_in(module):
    """The ghost members of traits that are laws, and so proofs in an impl: those that speak of some value by name."""
    return {(item.name, ghost) for item in module.items if item.kind == "trait" for ghost, says in item.ghosts.items() if says.startswith("(")}


def calls_of_module(crate, module, names, own_traits, laws):
    """The public calls of a module, and what its impls of traits say of public types."""
    types = {name for _, name in names}
    for item in module.items:
        if item.kind == "fn" and (module.path, item.name) in names:
            yield call_of(crate, module, item.name, item.functions[0])
        elif item.kind == "trait" and (module.path, item.name) in names:
            for function in item.functions:
                yield call_of(crate, module, f"{item.name}::{function.name}", function)
            if says := list(item.ghosts.values()):
                yield Call(crate, f"meaning and laws of `{item.name}`", str(module.file), cited(module.imports, says), [], says, False)
        elif item.kind == "impl" and not item.of and item.name in types:
            for function in item.functions:
                if function.seen == "pub":
                    yield call_of(crate, module, f"{item.name}::{function.name}", function)
        elif item.kind == "impl" and item.of:
            trait = re.match(r"\w+", item.of)[0]
            given = re.findall(r"\w+", item.of[len(trait):])
            if not {item.name, *given} & types or trait in own_traits - types:
                continue
            says = [says for ghost, says in item.ghosts.items() if (trait, ghost) not in laws]
            says += [text for it in item.functions for kind, text in it.clauses if kind == "ensures"]
            yield Call(crate, f"`{item.of}` of `{item.name}`", str(module.file), cited(module.imports, says), [], says, False)


def calls_of_crate(crate, root, laws):
    modules = list(modules_of(root))
    own = [item.name for module in modules for item in module.items if item.kind in ("struct", "enum", "trait")]
    assert len(own) == len(set(own)), f"{crate}: two types of one name: this reader tells them apart by it"
    own_traits = {item.name for module in modules for item in module.items if item.kind == "trait"}
    names = reachable(root)
    return [call for module in modules for call in calls_of_module(crate, module, names, own_traits, laws)]


def crates_of(top):
    """The crates in the order of crates.txt."""
    lines = (Path(top) / "crates.txt").read_text(encoding="utf-8").splitlines()
    return [line.partition(":")[0].split()[0] for line in lines if ":" in line and not line.startswith("#")]


def calls_of(top):
    """The public calls of every library, in the order of crates.txt; a program has none."""
    files = {name: Path(top) / "crates" / name / "src" / "lib.rt" for name in crates_of(top)}
    roots = {name: read_module((), file, "pub") for name, file in files.items() if file.is_file()}
    laws = {law for root in roots.values() for module in modules_of(root) for law in laws_in(module)}
    return [call for name, root in roots.items() for call in calls_of_crate(name, root, laws)]


# ------------------------------------------------------------------ specs/ and proofs/
DECLARED = re.compile(r"^( *)((?:abbrev |unfoldable |pub )*)(?:(?:record|data) ([^\s(){}:]+)|([^\s(){}:]+) :(?= |$))")
OTHER = re.compile(r"^ *(use|pub mod|mod|module)\b")
RENAMED = re.compile(r"^use Rattle\.(\w+)\.specs\.([\w.]+) as (\w+)", re.M)


@dataclass
class Declaration:
    name: str
    line: int
    text: str            # without comments; white space as it stands
    under: str           # the heads of the modules that it stands in, whose parameters are its own too


def declarations(file):
    """What a file of specs/ or proofs/ declares at its top or in a module of it, in its order."""
    found, last, depth, heads = [], None, 0, {}
    for number, line in enumerate(file.read_text(encoding="utf-8").splitlines(), 1):
        if line.lstrip().startswith("--"):
            continue
        here = len(line) - len(line.lstrip())
        # what a module declares stands two places further in than the module, and ends where a line stands further out
        depth = min(depth, here) if line else depth
        other, declared = here == depth and OTHER.match(line), DECLARED.match(line)
        if other:
            last, depth = None, depth + 2 if other[1] == "module" else depth
            heads[depth] = line
        elif declared and here == depth:
            last = Declaration(declared[3] or declared[4], number, line, " ".join(heads[it] for it in sorted(heads) if 0 < it <= depth))
            found.append(last)
        elif last:
            last.text += f"\n{line}"
        elif depth:
            heads[depth] += f" {line}"
    for it in found:
        it.text = it.text.rstrip()
    return found


def resting(file, crates):
    """Each declaration of a file of specs/ or proofs/, by file and name: its text, and the definitions that it names."""
    text, found = file.read_text(encoding="utf-8"), declarations(file)
    where = str(file.relative_to(crates).with_suffix(""))
    imports = {it.name: (where, it.name) for it in found} | imported(text)
    for it in found:
        named = cited({name: of for name, of in imports.items() if name != it.name}, [it.under, it.text])
        for crate, path, alias in RENAMED.findall(text):
            named.setdefault(f"{crate}/specs/{path.replace('.', '/')}", []).extend(re.findall(rf"\b{alias}\.(\w+)", it.text))
        yield f"{where}: {it.name}", f"{it.under} {it.text}", {f"{of}: {name}" for of, names in named.items() for name in names}
