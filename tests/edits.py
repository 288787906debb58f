"""The wrong edits of the crates, and whether a log of the prover shows each refused for its own reason.

crates/CRATE/must-fail/NAME.edit is one error, with all its pairs of an `old:` and a `new:` line. A file sweep*.edit has many that are
tried at once: each pair is one by itself, but a line `# name: NAME` begins one of that name, with the pairs down to an empty line.
A line `# at: PLACE` above a pair says which declaration of its function's proof, or which theorem, refuses it. Only so may one file have
two of a function.
"""
import pathlib
import re
import sys
from collections import namedtuple

ROOT = pathlib.Path(__file__).resolve().parent.parent
ITEM = re.compile(r'^(?:pub(?:\(crate\))? )?(?:ghost )?(?:extern "C" )?(\w+) (?:\w+::)*(\w+)', re.M)
BLOCK = re.compile(r"(?:pub )?(?:impl(?:<[^{]*?>)? (?:(\w+(?:<[^{]*?>)?) for )?(\w+)|trait (\w+))")
MEMBER = re.compile(r"^    (?:pub(?:\(crate\))? )?(fn|const) (\w+)", re.M)
DEFINED = re.compile(r"^ *(?:unfoldable |abbrev )?(?:pub )?([\w'-]+) :(?=\s)", re.M)
MODULE = re.compile(r"( *)module ")
STARTS = re.compile(rf"{DEFINED.pattern}|^{MODULE.pattern}", re.M)
# What a pair belongs to: functions, each by the folder of its proof, as octet/step; or a definition, as =definition.
# `lent` are the functions that name what an import line brings.
Pair = namedtuple("Pair", "file old new owners lent")
Error = namedtuple("Error", "name places pairs")  # the name is empty for a pair by itself


def contents(crate):
    """The texts of a crate that are proved, by their paths in it."""
    return {str(f.relative_to(crate)): f.read_text() for part in ("src", "specs", "proofs") for f in (crate / part).rglob("*.*")}


def member(block, at):
    """The function or constant of a block of methods that a place belongs to. Its proof is named after the block: after the type, or the type
    and the trait with its arguments."""
    trait, typed, named = BLOCK.match(block).groups()
    after = named or typed + re.sub(r"\W", "", trait or "")
    found = [m[2] for m in MEMBER.finditer(block) if m.start() <= at]
    return [f"{after}/{found[-1]}"] if found else []


def owners(text, at):
    """The functions that a place of the code belongs to, and, in an import line, those that name what it brings. A constant belongs
    to all that name it."""
    starts = [*ITEM.finditer(text)]
    ends = [m.start() for m in starts[1:]] + [len(text)]
    items = [(m[1], m[2], m.start(), end) for m, end in zip(starts, ends)]
    kind, name, first, last = next((item for item in items if item[2] <= at < item[3]), ("", "", 0, 0))
    if kind in ("impl", "trait"):
        return member(text[first:last], at - first), []
    # an import line may bring several names
    brought = re.findall(r"\w+", text[at:text.find(";", at)].partition("{")[2]) if kind == "use" else []
    named = "|".join(brought or [name])
    naming = [n for k, n, start, end in items if k == "fn" and re.search(rf"\b(?:{named})\b", text[start:end])]
    return {"fn": [name], "const": naming}.get(kind, []), naming if kind == "use" else []


def defined(text, at):
    """The definitions that a place of a file of antt belongs to: the one around it; in the head of a module those of the module; none in
    an import line."""
    start = max((m.start() for m in STARTS.finditer(text, 0, text.find("\n", at))), default=None)
    if start is None:
        return []
    head = MODULE.match(text, start)
    if not head:
        return [DEFINED.match(text, start)[1]]
    body = re.split(rf"\n {{0,{len(head[1])}}}(?! |--|\n)", text[start:])[0]
    return DEFINED.findall(body)


def home(file, texts, name):
    """The file whose proofs a function's stand among: a method's are with its type, wherever the block of methods stands."""
    typed, _, method = name.partition("/")
    declared = re.compile(rf"^(?:pub(?:\(crate\))? )?(?:struct|enum) {typed}\b", re.M)
    return next((f for f, text in texts.items() if f.startswith("src/") and declared.search(text)), file) if method else file


def belonging(file, texts, at):
    """What a place of a file belongs to, and what it lends to."""
    text = texts[file]
    part, *folders = pathlib.PurePath(file).with_suffix("").parts
    if part == "src":
        module = {name: pathlib.PurePath(home(file, texts, name)).with_suffix("").parts[1:] for names in owners(text, at) for name in names}
        return (["/".join([*(f for f in module[n] if f not in ("lib", "main", "mod")), n]) for n in names] for names in owners(text, at))
    return ["=" + name for name in defined(text, at)] if len(folders) == 1 else [], []


def errors_of(edit, texts):
    """The errors of a file. Each pair is applied to the texts that the one before it left."""
    together = not edit.stem.startswith("sweep")
    errors, file, old, places = [Error(edit.stem, set(), [])] if together else [], "", "", set()
    named = together
    for line in edit.read_text().splitlines():
        key, _, value = line.partition(":")
        value = value.removeprefix(" ")
        if key == "# name" and not together:
            errors.append(Error(value, set(), []))
            named = True
        elif key == "# at":
            places = {value}
        elif not line:
            named = together
        elif key == "file":
            file = value
        elif key == "old":
            old = value
        elif key == "new":
            if not old or texts.get(file, "").count(old) != 1:
                sys.exit(f"sweep: FAILED: {edit.relative_to(ROOT)}: `{old}` does not stand once in {file}")
            errors += [] if named else [Error("", set(), [])]
            errors[-1].pairs.append(Pair(file, old, value, *belonging(file, texts, texts[file].index(old))))
            errors[-1].places.update(places)
            texts[file], places = texts[file].replace(old, value), set()
    return errors


def belongs(error):
    """What an error belongs to: the definitions that it changes, or else the functions."""
    found = [o for pair in error.pairs for o in pair.owners] or [o for pair in error.pairs for o in pair.lent]
    return list(dict.fromkeys([o for o in found if o.startswith("=")] or found))


def crowded(errors):
    """The functions and definitions of which a file has two errors that do not say each its own place."""
    owned = [(o, e) for e in errors for o in belongs(e)]
    for owner in {o for o, _ in owned}:
        own = [e.places for o, e in owned if o == owner]
        if len(own) > 1 and (not all(own) or len(set().union(*own)) < sum(map(len, own))):
            yield owner


# Not what a proof says where it no longer fits the text, or where something else that it stands on was refused.
OWN = r"(?!.*(?:was not admitted|was rejected|is not in scope|has no field|has no `[^`]*`))"


def told_by(log, texts):
    """The theorems and cases that a log has an error of their own in, each with its statement."""
    for file, name in re.findall(rf"/((?:specs|proofs)/\w+)\.antt:\d+:\d+: error: `([\w'-]+)`{OWN}", log):
        stated = re.search(rf"^ *(unfoldable |abbrev )?(?:pub )?{name} :\s.*?\n\n", texts[f"{file}.antt"] + "\n\n", re.M | re.S)
        if stated and not stated[1]:
            yield name, stated[0]


def unproved(log, texts, owner):
    """The goals of a function that the search for a proof left open: by what is said of the function, or by a note at a place of its text.
    rt ci gives no more than the first note."""
    said = re.search(rf"^fn \w+::{owner.replace('/', '::')}: no proof: .*?`search` did not prove ([^;\n]*)", log, re.M)
    yield from re.findall(r"`([^`]+)`", said[1]) if said else []
    for file, line, goal in re.findall(r"^note: (src/[\w/]+\.rt):(\d+):\d+: it is not proved that .*\(`([^`]+)`\)", log, re.M):
        at = sum(map(len, texts[file].splitlines(True)[:int(line) - 1]))
        yield from [goal] if owner in [*belonging(file, texts, at)][0] else []


def places(log, texts, owner):
    """Where a log has errors of their own: goals or declarations of a function's proof, or for a definition theorems and cases."""
    if owner.startswith("="):
        return {name for name, _ in told_by(log, texts)}
    return {*re.findall(rf"/proofs/{owner}/[^/\n]*\.antt:\d+:\d+: error: `([^`]+)`{OWN}", log), *unproved(log, texts, owner)}


def refused(log, texts, owner, others):
    """Whether a log has a function refused by an error of its own, or a definition by a theorem or case that names it. A theorem that is
    itself one of the others that were changed speaks for itself alone. A contract that promises less has its proof still, and its entry in
    Unique refuses it."""
    if owner.startswith("="):
        named = re.compile(rf"(?<![\w'-]){owner[1:]}(?![\w'-])")
        return any(named.search(stated) for name, stated in told_by(log, texts) if "=" + name not in others)
    entry = owner.rpartition("/")[2]
    return bool(places(log, texts, owner) or re.search(rf"/proofs/Unique\.antt:\d+:\d+: error: `{entry}`{OWN}", log))


def fits(log, texts, owner):
    """A function's proof files with the names that its steps have now: rattle names a step after its condition, so a changed condition
    takes names away that the proof cites."""
    said = "\n".join(re.findall(rf"/proofs/{owner}/[^/\n]*\.antt:\d+:\d+: error: (.*)", log))
    moved = dict(re.findall(r"has no `([^`]+)` that can be named from here \(did you mean `([^`]+)`", said))
    for old, new in re.findall(r"has no field `([^`]+)` \(nearest: \.([\w'-]+)", said):
        moved[old] = new
        # what a step is named after is in the names of the goals behind it too
        if old.startswith("if-") and new.startswith("if-"):
            moved[old.removeprefix("if")] = new.removeprefix("if")
    for name in re.findall(r"has no field `([^`]+)`\. A record further out has one", said):
        moved[f".before.{name}"] = f".{name}"
    names = re.compile("|".join((r"(?<![\w'-])" if old[0].isalpha() else "") + re.escape(old) + r"(?![\w'-])" for old in moved) or "(?!)")
    brought = {file: names.sub(lambda found: moved[found[0]], text) for file, text in texts.items() if f"/{owner}/" in file}
    return {file: text for file, text in brought.items() if text != texts[file]}


def idle(log, texts, error, beside):
    """What of an error a log does not show refused, where those beside it were tried with it: of changed definitions one has to be, of
    functions each, at the place that is said. Where an error was tried alone, whatever theorem or case is refused is refused for it."""
    owned = belongs(error) or ["nothing that it belongs to"]
    others = {o for e in beside for o in belongs(e) if o.startswith("=")} - {*owned}
    left = [o for o in owned if not refused(log, texts, o, others) or error.places and not error.places <= places(log, texts, o)]
    meant = owned[0].startswith("=")
    return [] if meant and (len(left) < len(owned) or not beside and any(told_by(log, texts))) else left
