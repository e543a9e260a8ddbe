"""Must-fail edits: where they may edit, and that the prover refuses each for a fact and not for its shape.

An edit that takes away a name which a proof uses, or changes how many arguments something takes, is refused whatever it says, and shows
nothing. So after the proofs what was said of each edit is read: its first refusal has to be of a class of facts. `rt ci` says of an edit
only the first line of that; a whole log, as tools/check-edits makes by trying an edit itself, may hold no refusal of a class of shapes either.

Rattle names the goals of a function by the branches of its code, and looks for a proof of each goal that no file answers. So an answer whose
goal is gone counts for nothing in a whole log, neither as a fact nor as a shape, as long as a fact is beside it.

Where the prover breaks its lines, and which of its sentences it says first, goes with the length of the file's path. So a refusal is
taken as one line, and its sentences in any order.
"""
import collections
import dataclasses
import re

from checks import antt, crates, source

FOLDERS = ("src", "specs")
# A whole check that refused, or one of some functions alone by which fewer are proved.
CHECKED = re.compile(r"^logic=not-proved|^only=(\d+) proved=(?!\1\b)\d+", re.M)

# Refusals that only follow from another one in the same log.
FOLLOWS = (
    r"^error: `[^`]+`: `[^`]+` was not admitted \(it has holes or undetermined implicits, or was rejected\), so this cannot be checked",
    r"^error: \d+ declarations? that depends? on `[^`]+`, which was (?:not admitted|rejected), (?:was|were) not checked",
    r"^fn: not proved; it calls .*, which (?:is|are) not proved$",
    r"^fn: no proof: (?:expected answers in \S+; )?it calls .*, which (?:is|are) not proved$",
    r"^fn: not proved$",
    r"^fn: not proved; it waits for the proof of `\w+`$",
    r"^gone: ",
)

# An answer to a goal that is not there, since a call, a branch or a loop came or went.
GONE = r"has no `[^`]+` that can be named from here"

# What the edit made is no definition, or states something else than what is shown: (class, pattern).
NEEDS = (
    ("a definition that is not well formed", r"^error in specs: "),
    ("a statement of another form", r"^(?!.*computed as far as they go, the two types).*as printed, the two types first differ where one has"
                                    r" `[^`]*` \(expected\), at the start,? and the other has `(?:mathlib\.Core\.Path\.◌≡◌|Path)`"),
)

# Refusals that any edit of the same shape would meet, whatever it says: (class, pattern).
SHAPES = (
    ("a field that is not there", r"has no field|has no constructor|has no member|has no `[^`]*` that can be named from here"),
    ("a name that is not there", r"` is not in scope|is not a (?:name|definition|module|library)\b|be named from here|cannot be named here"),
    ("a name that is not there", r"is private|did you mean|no such (?:name|module|file)|not found|cannot be had here"),
    ("another number of arguments", r"takes \d+ (?:argument|field|parameter)|but is given|is applied to an argument"),
    ("another number of arguments", r"room for only|which is not a function|too (?:many|few) (?:arguments|patterns|parameters)|binds \d+"),
    ("no case for it", r"missing case|no clause|not exhaustive|does not cover"),
    ("text that cannot be read", r"syntax|stopped before the end|does not parse|parse error|unexpected|expected an? (?:atomic )?expression"),
    ("a file that is missing", r"cannot (?:be )?read|no such file|there is no file|is missing"),
    ("a bound of the prover", r"met a bound|step limit|took more than|limit was met|could not tell"),
    ("nothing left to rewrite", r"no occurrence"),
    ("a fact of another form", r"a dimension \(.*\) is expected here"),
    ("no proof to look at", r"^fn: no proof(?!: expected answers in \S+; `search` did not prove )"),
)

# Refusals of a fact: (class, pattern, what it says).
FACTS = (
    ("returns", r"^note: it is not proved that what the function ensures holds when it returns",
     "what a function promises does not follow"),
    ("safety", r"^note: it is not proved that ",
     "a sum, an index or a cast that may fail, or what a call requires"),
    ("search", r"^error: .*`search`: no proof of `",
     "a search over the tests that were made finds no proof"),
    ("open", r"^fn: no proof: expected answers in \S+; `search` did not prove ",
     "the function whose promise does not follow"),
    ("omega", r"^error: .*`omega`: the (?:goal|part `[^`]+` of the goal) does not follow from what it read\."
              r" All of that holds, and the (?:goal|part) fails, at ",
     "numbers for which it fails are named"),
    ("grind", r"^error: .*`grind` found no proof\..*: the goal fails at ",
     "values for which it fails are named"),
    ("rewrite", r"^error: .*`(?:rw|simp)` has no last argument, so what it leaves must be a path whose two ends are equal, and `",
     "the two sides of an equation are not equal"),
)

# What is promised and what is given are two types. These are tried last, when no shape fits.
TYPES = (
    ("differ", r"^error: .*, the two (?:types|sides) (?:first differ where one has|differ only where one has|are) `",
     "what is promised and what is given differ in a value"),
    ("type", r"^error: .*expected type `",
     "what is promised and what is given are two statements"),
)
COMPUTED = r"computed as far as they go, the two types are `([^`]*)` \(expected\) and `([^`]*)` \(found\)"
NOT_COMPUTED = r"what the two types compute to is not shown, because [^()]*\([^()]*\)"

# The words that make what a type states, whatever its values.
FORM = ("→", "⊥", "¬", "≡", "Path", "≤", "<", "×", "↔", "T")


class BadEdit(Exception):
    """An edit that cannot be tried; it says why."""


@dataclasses.dataclass(frozen=True)
class Pair:
    """One replacement: the file below the crate's folder, the text and what takes its place."""

    file: str
    old: str
    new: str


def pairs_of(text):
    """The replacements of an edit, as rt reads them: a `file:` line holds for the pairs after it."""
    file = old = ""
    for line in text.splitlines():
        if line.startswith("file: "):
            file = line[len("file: ") :]
        elif line.startswith("old: "):
            old = line[len("old: ") :]
        elif line.startswith("new:"):
            new = line[len("new:") :]
            yield Pair(file, old, new[1:] if new.startswith(" ") else new)
            old = ""


def words_of(file, text):
    """What a file says, without comments and white space."""
    if file.endswith(".rt"):
        try:
            return [token.text for token in source.tokens_of(text)]
        except source.Unreadable:
            return text.split()
    return antt.without_comments(text).split()


def replaced(text, pair):
    """A file's text with one replacement made."""
    if not pair.old or text.count(pair.old) != 1:
        raise BadEdit(f"its `old:` text is in {pair.file} {text.count(pair.old) if pair.old else 0} times, and not once")
    return text.replace(pair.old, pair.new)


def edited(folder, text):
    """The files that an edit changes, by their names below the crate's folder, as they are after it."""
    files = {}
    for pair in pairs_of(text):
        words = pair.file.split("/")
        if words[0] not in FOLDERS or len(words) < 2 or any(word in ("", ".", "..") for word in words):
            raise BadEdit(f"`file: {pair.file}` is no file in src/ or specs/")
        path = folder / pair.file
        if not path.is_file() or path.is_symlink():
            raise BadEdit(f"there is no file {pair.file}")
        before = files.get(pair.file, path.read_text())
        after = replaced(before, pair)
        if words_of(pair.file, before) == words_of(pair.file, after):
            raise BadEdit(f"it changes nothing of {pair.file} but comments or white space")
        files[pair.file] = after
    if not files:
        raise BadEdit("it has no `old:` and `new:` pair")
    if any(name.startswith("specs/") for name in files) and len(list(pairs_of(text))) > 1:
        raise BadEdit("it changes a rule and something beside it: a changed rule is refused in many places, so one could hide another")
    for name, after in files.items():
        if words_of(name, after) == words_of(name, (folder / name).read_text()):
            raise BadEdit(f"all in all it changes nothing of {name}")
    return files


def edits_of(top):
    """The edits of the listed crates, as paths, and what else lies where edits belong."""
    names = crates.listed(top)[0]
    found, wrong = [], []
    for path in sorted((top / "crates").rglob("*.edit")):
        if path.parent.name != "must-fail" or path.parent.parent.parent != top / "crates" or path.parent.parent.name not in names:
            wrong.append(f"{path.relative_to(top)}: an edit here is not tried; they belong into crates/NAME/must-fail/ of a listed crate")
        else:
            found.append(path)
    for path in sorted((top / "crates").glob("*/must-fail/*")):
        if path.suffix != ".edit" or not path.is_file():
            wrong.append(f"{path.relative_to(top)}: no must-fail edit")
    return found, wrong


def check_static(top):
    """What is wrong with the edits themselves, and how many there are."""
    found, wrong = edits_of(top)
    for path in found:
        folder, text = path.parent.parent, path.read_text()
        try:
            edited(folder, text)
            for place in shared(places_of(folder, text)):
                raise BadEdit(f"{place} has two of its replacements, so one could hide the other")
        except (BadEdit, source.Unreadable) as why:
            wrong.append(f"{path.relative_to(top)}: {why}")
    return wrong, len(found)


@dataclasses.dataclass
class Refusal:
    """What a log says: the function that it says it of, nothing where it is of a law or of no one thing, and the words."""

    of: str
    said: str


def function_of(file):
    """The function whose proof a file is, as a log names it behind its crate, or nothing for a file of laws."""
    proof = re.search(r"(?:^|/)proofs/(.+)/(?:Answers|Invariants|Proof)\.antt$", file)
    return "::".join(proof[1].split("/")) if proof else ""


def without_crate(function):
    """A function as its proof's file names it."""
    return function.partition("::")[2] or function


def refusals_of(log):
    """What a log says against the crate: each error with the lines below it, each note that something is not proved, each function."""
    said, open_error, notes = [], False, []
    for line in log.split("\n"):
        error = re.match(r"(\S+):\d+:\d+: error: (.*)", line) or re.match(r"(error):? ?(.*)", line)
        note = re.match(r"note: \S+:\d+:\d+: (it is not proved .*)", line)
        item = re.match(r"(?:fn|struct|enum|impl) ([^ ]+): (.*)", line)
        if open_error and line.startswith("  "):
            said[-1].said += "\n" + line.strip()
            continue
        open_error = bool(error)
        if error:
            said.append(refusal_in(*error.groups()))
        elif note:
            notes.append(Refusal("", "note: " + note.group(1)))
            said.append(notes[-1])
        elif item:
            for one in notes:  # a function's notes stand before it
                one.of = without_crate(item.group(1))
            notes.clear()
            if not item.group(2).startswith("proved"):
                said.append(Refusal(without_crate(item.group(1)), "fn: " + item.group(2)))
        elif re.search(r"\berror\b", line.partition("`")[0]) and not line.startswith((" ", "note: ", "help: ")):
            said.append(Refusal("", "error: " + line))
    return said


def refusal_in(file, words):
    """An error's words about a file: of a definition, of an answer whose goal is gone, or of anything else."""
    function = function_of(file)
    if re.search(r"(?:^|/)specs/", file):
        return Refusal("", f"error in specs: {words}")
    return Refusal(function, f"gone: {words}" if function and re.search(GONE, words) else f"error: {words}")


def class_of(refusal):
    """The kind and the class of one refusal: follows, shape, fact, or unknown."""
    said = " ".join(refusal.split())
    if any(re.search(pattern, said) for pattern in FOLLOWS):
        return "follows", ""
    if name := first_in(NEEDS, said):
        return "shape", name
    if name := first_in(FACTS, said):
        return "fact", name
    if name := first_in(SHAPES, outside_quotes(re.sub(NOT_COMPUTED, "", said))):
        return "shape", name
    computed = re.search(COMPUTED, said)
    if computed and form_of(computed.group(1)) != form_of(computed.group(2)):
        return "shape", "a test turned round, or a fact of another form"
    name = first_in(TYPES, said)
    return ("fact" if name else "unknown"), name


def first_in(table, text):
    """The first class of a table whose pattern is in the text, or nothing."""
    return next((name for name, pattern, *_ in table if re.search(pattern, text)), "")


def form_of(type_):
    """The words of a type, outside its brackets, that say what it states and not of which values."""
    depth, form = 0, []
    for word in re.findall(r"[(){}]|[^\s(){}]+", type_):
        depth += (word in "({") - (word in ")}")
        if depth == 0 and word in FORM:
            form.append(word)
    return form


def outside_quotes(refusal):
    """A refusal with its quoted terms made short, so that a term's own words are not taken for the prover's."""
    parts = refusal.split("`")
    parts[1::2] = [part if re.fullmatch(r"[\w-]*", part) else ".." for part in parts[1::2]]
    return "`".join(parts)


def places_of(folder, text):
    """For each replacement of an edit the function that it stands in, with its type if it has one; nothing for a constant or a rule."""
    for pair in pairs_of(text):
        before = (folder / pair.file).read_text()
        functions = source.Reader(before).functions if pair.file.endswith(".rt") and pair.old in before else []
        line = source.line_at(before, before.find(pair.old))
        yield next((name_of(one) for one in functions if one.body[0].line <= line <= one.body[-1].line), "")


def name_of(function):
    """A function's name, behind that of its type, or of its `impl` of a trait as the prover names that."""
    return "::".join(filter(None, (function.proved_as or function.owner, function.name)))


def shared(places):
    """The functions that have two replacements of an edit or more, by where each of them stands."""
    counts = collections.Counter(filter(None, places))
    return sorted(place for place, count in counts.items() if count > 1)


def hidden(facts, places):
    """What may hide behind another: a replacement without a fact of its very function, or a constant without one of yet another."""
    named = [place for place in places if place]
    own = {place: {fact for fact in facts if f"::{fact}".endswith(f"::{place}")} for place in named}
    found = [f"{place} has two of its replacements" for place in shared(places)]
    found += [f"no fact is of {place}" for place in sorted(own) if not own[place]]
    if len(facts - set().union(*own.values())) < len(places) - len(named):
        found.append("no fact is of a constant alone")
    return found


def check_log(log, places=("",)):
    """The class of a log's first refusal, and what is wrong with the log. Of several replacements each has to be refused for a fact."""
    if not CHECKED.search(log):
        return "", ["its log does not say that the prover refused it"]
    first, wrong, facts = "", [], set()
    for refusal in refusals_of(log):
        kind, name = class_of(refusal.said)
        if kind == "shape":
            wrong.append(f"refused for its shape ({name}), which shows nothing: {shown(refusal.said)}")
        elif kind == "unknown":
            wrong.append(f"refused by what is not known to be a fact: {shown(refusal.said)}")
        elif kind == "fact":
            first = first or name
            if name != "open":  # that a function is open is said beside the fact itself
                facts |= {refusal.of} - {""}
    if not first and not wrong:
        wrong.append("its log names no fact that it is refused for")
    if len(places) > 1:
        wrong += [f"one of its {len(places)} replacements may be hidden: {what}" for what in hidden(facts, places)]
    return first, wrong


def shown(refusal):
    """As much of a refusal as a reader needs to find it."""
    return re.sub(r"\s+", " ", refusal)[:300]


# What rt ci says of an edit, and what of that shows nothing: (the words, why).
SAID = re.compile(r"rt: must-fail (\w+)/([\w.-]+)\.edit: (.*)")
REFUSED = "refused, as it must be"
NOTHING = (
    (f"{REFUSED} (only because a proof file names what the edit took away", "refused for its shape (a name that is not there), which shows nothing"),
    (f"{REFUSED} (only by a limit of the prover", "refused for its shape (a bound of the prover), which shows nothing"),
)
LENGTH = 160  # of the refusal that it quotes, at most
# What the first line of a refusal says, or its beginning, where the whole one would say more.
FIRST_LINES = FACTS + (
    ("omega", r"^error: .*`omega`: the (?:goal|part `[^`]+` of the goal) does not follow from what it read", ""),
    ("grind", r"^error: .*`grind` found no proof", ""),
    ("rewrite", r"^error: .*give a proof of that as the last argument, `(?:rw|simp) ", ""),
)


def check_line(said):
    """The class of what rt ci says of an edit, and what is wrong with it."""
    for words, why in NOTHING:
        if said.startswith(words):
            return "", f"{why}: {shown(said.rpartition('): ')[2])}"
    if not said.startswith(REFUSED):
        return "", f"it was not refused; rt ci says: {shown(said)}"
    quoted = said.removeprefix(REFUSED).removeprefix(": ")
    if not quoted:
        return "", "rt ci names no fact that it is refused for"
    error, note = re.match(r"(\S+):\d+:\d+: error: (.*)", quoted), re.match(r"note: \S+:\d+:\d+: (it is not proved .*)", quoted)
    refusal = refusal_in(*error.groups()).said if error else f"note: {note.group(1)}" if note else f"error: {quoted}"
    kind, name = class_of(refusal)
    if kind != "fact":
        early = first_in(FIRST_LINES, " ".join(refusal.split())) if kind == "unknown" or len(quoted) >= LENGTH else ""
        kind, name = ("fact", early) if early else (kind, name)
    if kind == "fact":
        return name, ""
    why = f"refused for its shape ({name}), which shows nothing" if kind == "shape" else "refused by what is not known to be a fact"
    return "", f"{why}: {shown(quoted)}"


def check_said(top, text):
    """What is wrong with what rt ci said of the edits, and how many were refused by each class of fact."""
    counts, wrong = collections.Counter(), []
    said = {match.group(1, 2): match.group(3) for match in map(SAID.fullmatch, text.split("\n")) if match}
    for path in edits_of(top)[0]:
        where, line = path.relative_to(top), said.get((path.parent.parent.name, path.stem))
        name, fault = check_line(line) if line else ("", "it was not tried, rt ci says nothing of it")
        if fault:
            wrong.append(f"{where}: {fault}")
        else:
            counts[name] += 1
    return wrong, counts
