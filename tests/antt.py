# What the scripts in this folder read off the crates' antt files: imports, and what each module declares. By lines and
# indentation, which is enough since `rt fmt` lays all files out alike.
import re
from pathlib import Path

ROOT = Path(__file__).resolve().parent.parent
CRATES = ROOT / "crates"
IMPORT = re.compile(r"^[ \t]*(ghost )?use\s+([^{};\n]+?)\s*(?:\{([^}]*)\})?;?[ \t]*$", re.MULTILINE)
TYPE = re.compile(r"( *)(pub )?(record|data) ([^\s{]+)")
TERM = re.compile(r"( *)((?:abbrev |unfoldable )?)(pub )?(?!use |module |where)([^\s(){}:=]+) :(?= |$)")


def sources(kind):
    """The files of one kind in the crates, without what rt has made (out/)."""
    return sorted(path for path in CRATES.rglob(kind) if "out" not in path.relative_to(CRATES).parts)


def without_comments(text, mark="--"):
    return "\n".join(re.sub(rf"(^|\s){mark}.*", r"\1", line) for line in text.splitlines())


def modules(folder):
    """The files of the crates' specs/ or proofs/ that a Lib.antt can list, by crate and module."""
    return {(path.parts[-3], path.stem): path for path in sorted(CRATES.glob(f"*/{folder}/[A-Z]*.antt")) if path.stem != "Lib"}


class Declared:
    """A declaration: its name, its kind (record, data, definition, theorem, or part: a field or a constructor), whether it is
    public and whether a comment stands right before it, its text, and of a part the type that it belongs to."""

    def __init__(self, name, kind, public, commented, indent, owner=None):
        self.name, self.kind, self.public, self.commented = name, kind, public, commented
        self.indent, self.owner, self.lines = indent, owner, []

    @property
    def text(self):
        return "\n".join(self.lines)

    @property
    def statement(self):
        """Its type: up to the line that begins what it is."""
        return re.split(rf"\n *(?:unfolding\b|{re.escape(self.name)}(?=\s))", self.text)[0]


def declarations(text):
    """What a file declares, in its order. Parameters of a `module _` belong to the statements within it."""
    found, current, context, comment = [], None, [], False
    for line in text.splitlines():
        bare = re.sub(r"(^|\s)--.*", "", line).rstrip()
        if bare.strip():
            indent = len(bare) - len(bare.lstrip())
            context = [(depth, module) for depth, module in context if depth < indent]
            kept = current if current and current.kind in ("record", "data") and indent > current.indent else None
            type_, term = TYPE.match(bare), TERM.match(bare)
            if bare.lstrip().startswith("module _"):
                context.append((indent, bare))
                current = None
            elif type_:
                current = Declared(type_[4], type_[3], bool(type_[2]), comment, indent)
                found.append(current)
            elif term and kept:
                found.append(Declared(term[4], "part", True, comment, indent, kept.name))
            elif term and not (current and indent > current.indent and current.kind in ("definition", "theorem")):
                current = Declared(term[4], "definition" if term[2] else "theorem", bool(term[3]), comment, indent)
                current.lines += [module for _, module in context]
                found.append(current)
            if current:
                current.lines.append(bare)
        stripped = line.strip()
        comment = stripped.startswith("--") and not stripped.startswith("-- ----")
    return found


def listed():
    """The modules that a Lib.antt lists: the crate, the folder (specs or proofs), the module, and the comment above it."""
    for library in sorted(CRATES.glob("*/*/Lib.antt"), key=lambda path: (path.parts[-3], path.parts[-2] != "specs")):
        heading = ""
        for line in library.read_text().splitlines():
            heading = line if line.startswith("--") else heading
            if line.startswith("pub mod "):
                yield library.parts[-3], library.parts[-2], line.split()[-1], heading


def headlines():
    """The headline theorems, by crate, folder and module. Of the modules that a Lib.antt, of specs/ or of proofs/, lists below
    a comment with "theorems" in it: each public theorem right behind a comment (a heading, `-- ---- ..`, does not count), and
    each that nothing else names."""
    everything = "\n".join(without_comments(path.read_text()) for path in sources("*.antt"))
    cited = {}
    for word in re.findall(r"[^\s(){}\[\],;.]+", IMPORT.sub("", everything)):
        cited[word] = cited.get(word, 0) + 1
    for crate, folder, module, heading in listed():
        if "theorems" in heading:
            for one in declarations((CRATES / crate / folder / f"{module}.antt").read_text()):
                own = len(re.findall(rf"^ *(?:pub )?{re.escape(one.name)}(?=\s)", one.text, re.MULTILINE))
                if one.kind == "theorem" and one.public and (one.commented or cited[one.name] == own):
                    yield crate, folder, module, one
