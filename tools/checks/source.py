"""Rattle's source: its tokens, and its functions with their parameters, their answer and their clauses.

A clause's text is antt's and not Rust's. It is taken as one token, from its brace to the one that closes it; it may hold no comment and
no quoted text, so that no two readers can differ about its end.
"""
import dataclasses
import re

CLAUSES = ("requires", "ensures", "ghost")
TOKEN = re.compile(
    r"""(?P<space>\s+)
      | (?P<line>//[^\n]*)
      | (?P<text>(?:\br|\bbr)(?P<hash>\#*)"[\s\S]*?"(?P=hash) | b?"(?:[^"\\]|\\[\s\S])*")
      | (?P<char>b?'(?:\\(?:x[0-9a-fA-F]{2}|u\{[^}]*\}|[\s\S])|[^'\\\n])')
      | (?P<lifetime>'\w+)
      | (?P<word>\w+)
      | (?P<sign>->|=>|::|&&|\|\||\.\.=|\.\.|<<|>>|[-+*/%&|^=!<>]=|[^\s\w])""",
    re.X,
)
# what marks a thing and leaves it what it is: its layout, its symbol, what is derived for it, the tactics of its proof
ATTRIBUTE = re.compile(r"\[ inline(?: \( always \))? \]|\[ repr \( \w+ \) \]|\[ unsafe \( no_mangle \) \]|\[ derive \( [\w ,:]* \) \]|!? ?\[ (?:tactic|cycle) \( [^#]* \) \]")
QUALIFIERS = ("const", "unsafe", "async", "extern")
OPENING = {"(": ")", "[": "]", "{": "}"}


class Unreadable(Exception):
    """Source that this reader does not take apart; it says why."""


@dataclasses.dataclass(frozen=True)
class Token:
    """A token of a source: its kind (word, sign, text, char, lifetime or clause), its text and the line it begins in."""

    kind: str
    text: str
    line: int


@dataclasses.dataclass
class Function:
    """A function of a source, with what stands between its name and its body."""

    name: str
    owner: str
    modules: tuple
    line: int
    public: bool
    parameters: list
    answer: str
    clauses: list
    clause_names: list
    body: list
    stated: list  # the clauses' own texts
    trait: str = ""  # of a trait's `impl`, whose ghost members say what the function gives
    block: int = -1  # the number of that `impl` among the source's
    proved_as: str = ""  # the name that the prover gives to that `impl`, as U8FromKind
    generics: tuple = ()  # its own and its type's, without lifetimes: of a `const` the name and the type, of a type its name and nothing


@dataclasses.dataclass(frozen=True)
class Member:
    """A ghost member of an `impl`: what it says of the trait's functions for the type."""

    trait: str
    block: int  # the number of its `impl` among the source's
    owner: str
    name: str
    line: int
    stated: str


@dataclasses.dataclass
class Declared:
    """A struct, an enum, a constant or another thing that a source declares by name, and the type whose `impl` it stands in, if any."""

    kind: str
    name: str
    owner: str
    modules: tuple
    line: int
    public: bool
    tokens: list


def past_comment(source, start):
    """The place past a block comment. One within another is not read, so that no two readers can differ about the end."""
    end = source.find("*/", start + 2)
    if end < 0:
        raise Unreadable(f"line {line_at(source, start)}: a comment that does not end")
    if "/*" in source[start + 2 : end]:
        raise Unreadable(f"line {line_at(source, start)}: a comment within a comment")
    return end + 2


def line_at(source, place):
    """The number of the line that a place of a text is in."""
    return source.count("\n", 0, place) + 1


def past_clause(source, start):
    """The place past a clause whose brace stands at start."""
    depth = 0
    for place in range(start, len(source)):
        depth += {"{": 1, "}": -1}.get(source[place], 0)
        if depth == 0:
            text = source[start : place + 1]
            if re.search(r'//|/\*|--|\{-|"', text):
                raise Unreadable(f"line {line_at(source, start)}: a clause with a comment or a quoted text in it")
            return place + 1
    raise Unreadable(f"line {line_at(source, start)}: a clause that does not end")


def expects_clause(tokens):
    """Whether a brace behind these tokens opens a clause: `ensures {`, `ensures name {`, and so for requires and ghost; `ghost name = {` and
    `ghost name: {` too, in an `impl` and in a struct."""
    last = tokens[-2:]
    if last and last[-1].text in ("=", ":"):
        return [token.text for token in tokens[-3:-2]] == ["ghost"]
    if not last or last[-1].kind != "word":
        return False
    return any(token.kind == "word" and token.text in CLAUSES for token in last)


def tokens_of(source, ghosts=None):
    """The tokens of a source without its comments; `ghost use` lines are left out, and collected where a list is given."""
    tokens, place = [], 0
    while place < len(source):
        if source.startswith("/*", place):
            place = past_comment(source, place)
            continue
        if source[place] == "{" and expects_clause(tokens):
            end = past_clause(source, place)
            tokens.append(Token("clause", source[place:end], line_at(source, place)))
            place = end
            continue
        match = TOKEN.match(source, place)
        if match is None:
            raise Unreadable(f"line {line_at(source, place)}: no token begins here")
        place = match.end()
        kind = match.lastgroup if match.lastgroup != "hash" else "text"
        if kind in ("space", "line"):
            continue
        tokens.append(Token(kind, match.group(), line_at(source, match.start())))
        if [token.text for token in tokens[-2:]] == ["ghost", "use"]:
            begun, place = place, source.find(";", place) + 1
            if not place:
                raise Unreadable(f"line {tokens[-1].line}: a `ghost use` that does not end")
            if ghosts is not None:
                ghosts.append((tokens[-1].line, "use " + " ".join(source[begun : place - 1].split())))
            del tokens[-2:]
    return tokens


def past_group(tokens, start):
    """The number of the token past the one that closes the group which the token at start opens."""
    stack = []
    for number in range(start, len(tokens)):
        token = tokens[number]
        if token.kind != "sign":
            continue
        if token.text in OPENING:
            stack.append(OPENING[token.text])
        elif token.text in OPENING.values():
            if not stack or stack.pop() != token.text:
                raise Unreadable(f"line {token.line}: a {token.text} that closes nothing")
            if not stack:
                return number + 1
    raise Unreadable(f"line {tokens[start].line}: a {tokens[start].text} that is not closed")


def past_generics(tokens, start):
    """The number of the token past `<..>`, if it stands at start."""
    if start >= len(tokens) or tokens[start].text != "<":
        return start
    depth = 0
    for number in range(start, len(tokens)):
        depth += {"<": 1, ">": -1, ">>": -2}.get(tokens[number].text, 0)
        if depth <= 0:
            return number + 1
    raise Unreadable(f"line {tokens[start].line}: a < that is not closed")


def generics_of(tokens):
    """What stands between `<` and `>`, without the lifetimes: of a `const` its name and its type, of a type its name and nothing."""
    for part in parts_of(tokens[1:-1]):
        words = [token.text for token in part]
        if words[0] == "const":
            yield words[1], " ".join(words[3:])
        elif part[0].kind != "lifetime":
            yield words[0], ""


def capitals(tokens):
    """The words among some tokens, each with a capital, and of an array or a slice the word for it."""
    words = ("Array" if token.text == "[" else token.text if token.kind == "word" else "" for token in tokens)
    return "".join(word[:1].upper() + word[1:] for word in words)


def parts_of(tokens):
    """Tokens taken apart at the commas that stand in no group."""
    parts, part, depth = [], [], 0
    for token in tokens:
        depth += {"(": 1, "[": 1, "{": 1, "<": 1, ")": -1, "]": -1, "}": -1, ">": -1, ">>": -2}.get(token.text, 0)
        if token.text == "," and depth == 0:
            parts.append(part)
            part = []
        else:
            part.append(token)
    return [part for part in parts + [part] if part]


def parameter_of(tokens):
    """A parameter's name and its type's text; of `self` in any form the type is the form itself."""
    texts = [token.text for token in tokens]
    if "self" in texts and ":" not in texts:
        return "self", " ".join(texts)
    if ":" not in texts:
        raise Unreadable(f"line {tokens[0].line}: a parameter without a type")
    colon = texts.index(":")
    name = [text for text in texts[:colon] if text != "mut"]
    if len(name) != 1 or not name[0].isidentifier():
        raise Unreadable(f"line {tokens[0].line}: a parameter that is no plain name")
    return name[0], " ".join(texts[colon + 1 :])


class Reader:
    """Walks over a source's tokens, and collects its functions and the other things that it declares."""

    def __init__(self, source, modules=()):
        self.ghosts = []  # the definitions' names that `ghost use` brings: the line, and its text
        self.tokens = tokens_of(source, self.ghosts)
        self.functions, self.declared, self.strange = [], [], []
        self.handed = []  # what `pub use` hands on: the line, and the words of its path
        self.members = []  # the ghost members of `impl` blocks
        self.blocks = []  # the `impl` blocks of traits: the line, the trait and the type
        self.trait, self.proved_as, self.block = "", "", -1  # the trait whose `impl` is being read, the prover's name for that, and its number
        self.outer = ()  # what the `impl` is generic over
        self.items(0, len(self.tokens), modules, "")
        if self.clauses_in(self.tokens) != self.clauses_read():
            raise Unreadable("a clause that belongs to no function")

    @staticmethod
    def clauses_in(tokens):
        """How many clauses there are among some tokens."""
        return sum(token.kind == "clause" for token in tokens)

    def clauses_read(self):
        """How many clauses belong to what was read: functions, ghost members and ghost fields."""
        functions = sum(len(function.clauses) for function in self.functions)
        fields = sum(self.clauses_in(thing.tokens) for thing in self.declared if thing.kind == "struct")
        return functions + len(self.members) + fields

    def text(self, number):
        """The text of a token, or nothing past the end."""
        return self.tokens[number].text if number < len(self.tokens) else ""

    def items(self, start, end, modules, owner):
        """Reads the items between two tokens."""
        while start < end:
            start = self.item(start, modules, owner)

    def item(self, start, modules, owner):
        """Reads one item, with its attributes and its marks, and gives the number of the token past it."""
        place, public = start, False
        while self.text(place) == "#":
            past = past_group(self.tokens, place + 1)
            inner = self.text(place + 1) == "!"  # of the whole file or block, and so an item by itself
            words = " ".join(token.text for token in self.tokens[place + 1 : past])
            public = public or "no_mangle" in words
            if not ATTRIBUTE.fullmatch(words):
                self.strange.append((self.tokens[place].line, f"the attribute #{words}"))
            place = past
            if inner:
                return place
        if self.text(place) == "pub":
            place += 1
            if self.text(place) == "(":
                place = past_group(self.tokens, place)
            else:
                public = True
        while place < len(self.tokens) and (self.text(place) in QUALIFIERS or self.tokens[place].kind == "text"):
            if self.text(place) == "const" and self.text(place + 1) not in QUALIFIERS + ("fn",):
                break
            public = public or self.text(place) == "extern"
            place += 1
        if place >= len(self.tokens):
            raise Unreadable("the last item does not end")
        return self.named(place, modules, owner, public)

    def named(self, place, modules, owner, public):
        """Reads the item whose own word stands at place."""
        word, line = self.text(place), self.tokens[place].line
        if word == "fn":
            return self.function(place, modules, owner, public)
        if word == "mod":
            name = self.text(place + 1)
            if self.text(place + 2) == ";":
                return place + 3
            end = past_group(self.tokens, place + 2)
            self.items(place + 3, end - 1, modules + (name,), owner)
            return end
        if word == "impl":
            return self.block_of(place, modules)
        if word == "ghost":
            return self.member(place, owner)
        if word in ("use", "const", "static", "type", "struct", "enum", "union"):
            end = self.past_item(place)
            if word == "use":
                if public:
                    self.handed.append((line, tuple(token.text for token in self.tokens[place + 1 : end - 1])))
            else:
                self.declared.append(Declared(word, self.text(place + 1), owner, modules, line, public, self.tokens[place:end]))
            return end
        raise Unreadable(f"line {line}: an item that begins with {word}, which this check does not know")

    def member(self, place, owner):
        """Reads `ghost NAME = { .. };` of an `impl`."""
        name, *signs = (self.text(place + step) for step in (1, 2, 4))
        if signs != ["=", ";"] or self.tokens[place + 3].kind != "clause":
            raise Unreadable(f"line {self.tokens[place].line}: a ghost member that is no `ghost NAME = {{ .. }};`")
        if not self.trait:
            raise Unreadable(f"line {self.tokens[place].line}: a ghost member in no trait's impl")
        self.members.append(Member(self.trait, self.block, owner, name, self.tokens[place].line, self.text(place + 3)))
        return place + 5

    def past_item(self, place):
        """The number of the token past an item that ends with its semicolon or, of a struct or an enum, with its block."""
        block = self.text(place) in ("struct", "enum", "union")
        while place < len(self.tokens):
            if self.text(place) == ";":
                return place + 1
            if self.tokens[place].kind == "sign" and self.text(place) in OPENING:
                braces = self.text(place) == "{"
                place = past_group(self.tokens, place)
                if block and braces:
                    return place
            else:
                place += 1
        raise Unreadable("an item that does not end")

    def block_of(self, place, modules):
        """Reads `impl TYPE { .. }` and `impl TRAIT for TYPE { .. }`."""
        line, start = self.tokens[place].line, place + 1
        place = past_generics(self.tokens, start)
        generics = tuple(generics_of(self.tokens[start:place]))
        owner = trait = arguments = ""
        while self.text(place) != "{":
            if self.text(place) == "<":
                past = past_generics(self.tokens, place)
                arguments += "" if trait else capitals(self.tokens[place:past])
                place = past
                continue
            if self.text(place) == "for":
                trait, owner = owner, ""
            elif self.tokens[place].kind == "word":
                owner = self.text(place)
            place = past_group(self.tokens, place) if self.text(place) in OPENING else place + 1
            if place >= len(self.tokens):
                raise Unreadable(f"line {line}: an impl without a block")
        end = past_group(self.tokens, place)
        if trait:
            self.block = len(self.blocks)
            self.blocks.append((line, trait, owner))
        self.trait, self.outer = trait, generics
        self.proved_as = owner[:1].upper() + owner[1:] + trait + arguments if trait else ""
        self.items(place + 1, end - 1, modules, owner)
        self.trait, self.proved_as, self.block, self.outer = "", "", -1, ()
        return end

    def function(self, place, modules, owner, public):
        """Reads a function from its `fn` on."""
        name, line, start = self.text(place + 1), self.tokens[place].line, place + 2
        place = past_generics(self.tokens, start)
        generics = self.outer + tuple(generics_of(self.tokens[start:place]))
        if self.text(place) != "(":
            raise Unreadable(f"line {line}: fn {name} without its parameters")
        past = past_group(self.tokens, place)
        parameters = [parameter_of(part) for part in parts_of(self.tokens[place + 1 : past - 1])]
        place, answer = self.answer(past)
        place, clauses, names, stated = self.clauses(place)
        if self.text(place) != "{":
            raise Unreadable(f"line {line}: fn {name} has no body where one is expected")
        end = past_group(self.tokens, place)
        body = self.tokens[place:end]
        block = (self.trait, self.block, self.proved_as)
        self.functions.append(Function(name, owner, modules, line, public, parameters, answer, clauses, names, body, stated, *block, generics))
        return end

    def answer(self, place):
        """The number of the token past a function's answer type, and the text of that type."""
        if self.text(place) != "->":
            return place, ""
        start = place = place + 1
        while place < len(self.tokens) and self.text(place) not in CLAUSES + ("{", ";"):
            place = past_group(self.tokens, place) if self.text(place) in OPENING else place + 1
        return place, " ".join(token.text for token in self.tokens[start:place])

    def clauses(self, place):
        """The number of the token past a function's clauses, the words that they begin with, the names that they have, and their texts."""
        words, names, stated = [], [], []
        while self.text(place) in CLAUSES:
            words.append(self.text(place))
            place += 1
            if self.text(place) != "" and self.tokens[place].kind == "word":
                names.append(self.text(place))
                place += 1
            if self.text(place) == "" or self.tokens[place].kind != "clause":
                raise Unreadable(f"line {self.tokens[place - 1].line}: {words[-1]} without its braces")
            stated.append(self.text(place))
            place += 1
        return place, words, names, stated


def modules_of(path, source_folder):
    """The modules that a file stands for, from the outermost in: none for lib.rt and main.rt, the folder's for a mod.rt."""
    words = path.relative_to(source_folder).with_suffix("").parts
    return words[:-1] if words[-1] == "mod" or words in (("lib",), ("main",)) else words


def read_crate(folder):
    """Each source file of a crate with its reader, or with the reason why it cannot be read."""
    for path in sorted((folder / "src").rglob("*")):
        if path.is_symlink():
            yield path, None, "a link, which is not read"
            continue
        if path.is_dir():
            continue
        if path.suffix != ".rt":
            yield path, None, "no source file"
            continue
        try:
            yield path, Reader(path.read_text(), modules_of(path, folder / "src")), ""
        except Unreadable as why:
            yield path, None, str(why)
