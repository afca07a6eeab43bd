"""What the program tells beside its answers, over the reference model, which has none of it: the old name in code that no unit processes, each
unit by itself (`check`), and the note behind `--why`. scripts/random-told holds the program against this."""

import re

from cscout_ref import binder, reader
from cscout_ref.analysis import analyse
from cscout_ref.batch import parse_number
from cscout_ref.cli import parse, read_workspace_file, run
from cscout_ref.generate import MAX_GENERATED
from cscout_ref.model import CAUSE_WORDS, Place, UnitFault, WorkspaceFault
from cscout_ref.units import Cache, preprocess

# ---- the old name

WIDE = {"Tag", "Member", "Typedef", "Enumerator", "Function"}


def unseen(analysis, part):
    """Its lines behind those of an edit that is done: the whole tokens that are spelled as the part, that nothing of the analysis reaches and
    that no unit has, and the words in strings of `_Pragma` that no unit has, where the class of the part could be meant, by place."""
    members = analysis.members(part.cls)
    wide, busy = roles(analysis, part.cls)
    processed = {(o.file, o.at) for unit in analysis.units for tok in unit.text.toks for o in tok.origins if o}
    found = []
    for tok in words_of(analysis, part.text):
        whole = analysis.classes.part_at(tok.at)
        if (whole.len == len(tok.text) and whole.cls != part.cls and whole.cls not in busy
                and (tok.at.file, tok.at.at) not in processed and (wide or is_between(members, tok.at))):
            found.append(tok.at)
    found += [at for at in quoted_words(analysis, part.text) if (at.file, at.at) not in processed and (wide or is_between(members, at))]
    return b"".join(b"unseen " + analysis.place(at).words() + b" " + part.text + b"\n" for at in sorted(found, key=analysis.place_key))


def operands(analysis):
    """The items of the files that may be edited, and the tokens of each but for the word of a directive."""
    for file in analysis.kept.values():
        if not analysis.read_only(file.number):
            yield from ((item, item.toks if item.kind == "Run" else item.toks[2:]) for item in file.items)


def words_of(analysis, name):
    """The identifiers of the spelling in the files that may be edited: none of a define line that has a parameter of that name, and no word
    of a directive."""
    for item, toks in operands(analysis):
        if item.kind != "Define" or name not in parameters(item.toks[3:]):
            yield from (t for t in toks if t.kind == "Ident" and t.text == name)


def quoted_words(analysis, name):
    """Where the spelling stands as a whole word, as it is written, in the string of `_Pragma ( string )`."""
    for _, toks in operands(analysis):
        for k, tok in enumerate(toks):
            if tok.kind == "Ident" and tok.text == b"_Pragma" and toks[k + 1:] and toks[k + 1].is_punct(b"("):
                rest = toks[k + 2:k + 5]
                if len(rest) > 1 and rest[0].text in (b"u8", b"u", b"U") and not rest[1].gap:
                    del rest[0]
                if len(rest) > 1 and rest[0].kind == "Str" and rest[1].is_punct(b")"):
                    inside = rest[0].text.index(b'"')
                    yield from (rest[0].origins[it.start()] for it in re.finditer(rb"\b%s\b" % name, rest[0].text) if it.start() > inside)


def parameters(toks):
    """The names between the parentheses of a parameter list, with which the tokens begin or do not."""
    if not toks or not toks[0].is_punct(b"(") or toks[0].gap:
        return []
    found = []
    for tok in toks[1:]:
        if tok.is_punct(b")"):
            break
        if tok.kind == "Ident":
            found.append(tok.text)
    return found


def roles(analysis, cls):
    """Does the class reach past a function; and the classes that some name declares or uses."""
    wide, busy = False, set()
    for unit in analysis.units:
        for event in unit.text.events:
            if event.kind in ("Defined", "Replaced", "Tested", "Left"):
                classes = analysis.classes_in(event.name)
                busy.update(classes)
                wide |= event.kind == "Defined" and cls in classes
    for unit, _, tok, entity in analysis.occurrences():
        classes = analysis.classes_in(tok)
        busy.update(classes)
        if unit.bound.kind[entity] in WIDE or unit.bound.linkage.get(entity) == "External":
            wide |= cls in classes
    return wide, busy


def is_between(members, at):
    """Does the position stand between two members, and do all members stand in its file?"""
    return (all(m.start.file == at.file for m in members) and any(m.start.at < at.at for m in members)
            and any(at.at < m.start.at for m in members))


# ---- each unit by itself

def checked(words, files):
    """The status, and the bytes for output and messages, of `check`."""
    try:
        workspace = read_workspace_file(words[0], files)
    except WorkspaceFault:
        return run([words[0], b"skipped"], files)
    lines = []
    for number, unit in enumerate(workspace.units, 1):
        found = finding(unit, number, files)
        if found is not None:
            place, cause, token, source = found
            lines.append(b"unit %d %s: %s: %s%s%s\n" % (
                number, unit.path, place.words(), CAUSE_WORDS[cause], b": " + token if token is not None else b"",
                b" from " + source.words() if source is not None else b""))
    count = len(workspace.units)
    return int(bool(lines)), b"".join(lines) + b"accepted %d of %d units\n" % (count - len(lines), count), b""


def finding(unit, number, files):
    """None, or the place, the cause, the token and the place where it comes from."""
    cache = Cache(files)
    try:
        text = preprocess(cache, unit, number)
    except UnitFault as fault:
        return fault.place, fault.cause, None, None
    toks = text.toks
    try:
        binder.bind(toks, reader.read(toks, unit.standard), unit.standard)
    except (reader.ReadFault, binder.BindFault) as fault:
        if not toks:
            return Place(unit.path, 1, 1), fault.cause, None, None
        place = cache.place(toks[min(fault.index, len(toks) - 1)].at)
        if fault.index >= len(toks):
            return place, fault.cause, None, None
        tok = toks[fault.index]
        first = tok.origins[0] if tok.origins else None
        source = cache.place(first) if first and first != tok.at and first.file in cache.kept else None
        return place, fault.cause, tok.text, source
    return None


# ---- notes

FORMS = {
    b"tokens": (b"UNIT",), b"class": (b"PATH", b"LINE", b"COL"), b"unused": (), b"includes": (), b"check": (), b"calls": (), b"skipped": (),
    b"trim": (), b"find": (b"QUERY",), b"batch": (b"FILE",), b"rename": (b"PATH", b"LINE", b"COL", b"NAME"),
    b"template": (b"PATH", b"LINE", b"COL", b"ORDER"), b"macro": (b"PATH", b"LINE", b"COL", b"ORDER"),
}
OPTIONAL = {b"rename": b"strings", b"trim": b"stays"}
NUMBERS = b"UNIT", b"LINE", b"COL"


def explained(words, files):
    """The status, and the bytes for output and messages, of words behind `--why`."""
    status, out, err = checked(words, files) if words[1:] == [b"check"] else run(words, files)
    note = None
    if err == b"cscout: bad command line\n":
        note = usage(words)
    elif err == b"cscout: refused: no name\n":
        _, arguments = parse(words)
        note = unnamed(analyse(read_workspace_file(words[0], files), files), *(arguments[w] for w in (b"PATH", b"LINE", b"COL")))
    return status, out, err + (b"cscout: note: " + note + b"\n" if note else b"")


def usage(words):
    if not words:
        return b"no word is given"
    if len(words) == 1:
        return b"generate takes N" if words == [b"generate"] else b"no command follows " + words[0]
    command, rest = words[1], words[2:]
    if command not in FORMS:
        if words[0] == b"generate" and not rest:
            return b"N is a number from 1 to %d, and not %s" % (MAX_GENERATED, command)
        return b"there is no command " + command
    names, more = FORMS[command], OPTIONAL.get(command)
    if len(rest) != len(names) and not (more and len(rest) == len(names) + 1):
        form = b" ".join(names) + (b" [%s]" % more if more else b"")
        return command + b" takes " + (form.strip() or b"no word behind it")
    for name, word in zip(names, rest):
        if name in NUMBERS and parse_number(word) is None:
            return name + b" is a number from 1 to 999999999, and not " + word
    return b"the word behind %s is %s, and not %s" % (names[-1] if names else command, more, rest[-1])


def unnamed(analysis, path, line, column):
    file = next((f for f in analysis.kept.values() if f.path == path), None)
    if file is None:
        return b"no unit reads %s; paths are those of the workspace file" % path
    at = file.text.at_of(line, column)
    if at is None:
        return b"%s has no byte at line %d, column %d" % (path, line, column)
    k = file.text.index_over(at)
    if k is None or file.text.toks[k].kind != "Ident":
        return b"no identifier stands there"
    return b"no unit processes what stands there"
