"""The functions of a Rattle file: where each stands, what it belongs to, and the file without their bodies.

It reads the layout that `rt fmt` gives a file: what begins at a column ends at the next `}` in that column."""
import collections
import functools
import re

BLOCK = re.compile(r"^( *)(?:pub(?:\([^)]*\))? )?(?:unsafe )?(impl|trait|mod|macro_rules!)\b(.*)")

HEAD = re.compile(r"^( *)(?:pub(?:\([^)]*\))? )?((?:(?:const|unsafe|extern \"[^\"]*\"|extern|final) )*)fn (\w+)")

REMARK = re.compile(r"^ *//.*$", re.MULTILINE)

TYPE = re.compile(r"^( *)(?:pub(?:\([^)]*\))? )?(?:struct|enum|union) (\w+)", re.MULTILINE)

# A function: the path of the module that it stands in; the type or the trait that its block is of, or None; its name;
# the offsets of its first character, of its body and of its end; and what others see of its body.
Function = collections.namedtuple("Function", "module type trait name start body end shows")

# Others see nothing of a body; or it is a trait's, which its impls have; or others may use its value or type, or a
# macro writes it.
NOTHING, DEFAULT, ALL = "nothing", "default", "all"


def module_of(file):
    """The path of the module that a file of src/ is, which is "" for the crate's root."""
    parts = file[len("src/"):-len(".rt")].split("/")
    if parts[-1] in ("mod", "lib", "main") and (len(parts) == 1 or parts[-1] == "mod"):
        parts.pop()
    return "::".join(parts)


def without_generics(text):
    """A text without what stands in angle brackets."""
    kept, depth = [], 0
    for at, it in enumerate(text):
        depth += it == "<"
        if not depth:
            kept.append(it)
        depth -= it == ">" and text[at - 1:at] != "-"
    return "".join(kept)


def split_generics(text):
    """What stands in the first angle brackets of a text, and what stands after them."""
    depth = 0
    for at, it in enumerate(text):
        depth += (it == "<") - (it == ">" and text[at - 1:at] != "-")
        if it == ">" and not depth:
            return text[text.index("<") + 1:at], text[at + 1:]
    return "", text


def is_concrete(rest):
    """Whether an `impl` block is of a type with arguments that are no parameters of the block."""
    parameters, of = split_generics(rest) if rest.lstrip().startswith("<") else ("", rest)
    known = set(re.findall(r"(?:^|,)\s*(?:const )?(\w+)", without_generics(parameters)))
    return bool(set(re.findall(r"(?<![\w'])\w+", split_generics(of)[0])) - known)


def name_in(text):
    """The name that a path of a type or a trait ends with."""
    return text.partition("{")[0].partition(": ")[0].split("::")[-1].strip()


class Blocks:
    """The blocks that a line stands in, as `impl` and `mod`."""

    def __init__(self, module):
        self.module, self.open = module, []

    def begin(self, column, kind, rest):
        self.open.append((column, kind, rest))

    def end(self, column):
        if self.open and self.open[-1][0] == column:
            self.open.pop()

    def place(self):
        """The path of the module here, and the type or the trait that a function here belongs to, or None for each."""
        path, type_, trait = [self.module] * bool(self.module), None, None
        for _, kind, rest in self.open:
            head = without_generics(rest)
            if kind == "mod":
                path.append(rest.split()[0])
            elif kind == "trait" or " for " in head:
                trait = name_in(head.partition(" for ")[0])
            elif kind == "impl" and is_concrete(rest):
                # its name has the arguments too, as that of an impl of a trait has the type
                trait = name_in(head.partition(" where ")[0])
            elif kind == "impl":
                type_ = name_in(head.partition(" where ")[0])
            else:
                trait = ""
        return "::".join(path), type_, trait

    def show(self):
        """What others see of the body of a function here."""
        kinds = {kind for _, kind, _ in self.open}
        return ALL if "macro_rules!" in kinds else DEFAULT if "trait" in kinds else NOTHING


@functools.lru_cache(maxsize=None)
def functions_of(file, text):
    """The functions of a file that have a body, in their order."""
    blocks, found, head, at = Blocks(module_of(file)), [], None, 0
    for line in text.splitlines(keepends=True):
        bare = line.rstrip()
        column = len(bare) - len(bare.lstrip(" "))
        if head is None:
            begins = HEAD.match(line)
            block = BLOCK.match(line)
            if begins:
                head = Head(begins, at)
            elif block and bare.endswith("{"):
                blocks.begin(column, block[2], block[3])
            elif bare.strip() == "}":
                blocks.end(column)
        if head is not None:
            head.read(line, bare, column, at)
            if head.end is not None:
                found += [head.function(blocks, text)] * (head.body is not None)
                head = None
        at += len(line)
    return found


class Head:
    """A function that is being read."""

    def __init__(self, begins, at):
        self.column, self.words, self.name = len(begins[1]), begins[2], begins[3]
        self.start, self.body, self.end = at, None, None
        # how many braces of the clauses are open
        self.depth = 0

    def read(self, line, bare, column, at):
        """Takes a line from its first one on."""
        if self.body is not None:
            if bare == " " * self.column + "}":
                self.end = at + len(line)
            return
        is_whole = not self.depth
        self.depth += bare.count("{") - bare.count("}")
        if column == self.column and is_whole and bare.endswith("{"):
            self.body = at + len(bare) - 1
        elif column == self.column and is_whole and not self.depth and bare.endswith("}"):
            self.body, self.end = at + line.index("{"), at + len(line)
        elif not self.depth and bare.endswith(";"):
            self.end = at + len(line)

    def function(self, blocks, text):
        module, type_, trait = blocks.place()
        returns = text[self.start:self.body].partition("->")[2].partition("\n")[0]
        shows = ALL if "const" in self.words.split() or "impl " in returns else blocks.show()
        return Function(module, type_, trait, self.name, self.start, self.body, self.end, shows)


def types_of(file, text):
    """The modules of the types that a file defines, by the names of the types."""
    return {name: module_of(file) for _, name in TYPE.findall(text)}


def contracts_of(file, text, kept=()):
    """A file without its comments and without the bodies of its functions, but for those that begin at these places."""
    parts, at = [], 0
    for it in functions_of(file, text):
        if it.shows == NOTHING and it.start not in kept:
            parts.append(text[at:it.body])
            at = it.end
    return REMARK.sub("", "".join(parts) + text[at:])
