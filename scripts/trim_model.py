"""Which include lines `trim` takes away and why it leaves others, told over the reference model: it says what `trim` does and not why a line
stays, and takes `extern` for a word in front alone. scripts/random-trims and scripts/compile-trims hold the program against this."""
from cscout_ref.edits import Edit
from cscout_ref.reader import Node
from cscout_ref.reports import inclusions, unneeded
from cscout_ref.trim import _holds_whole_externals, _include_item, _reaches_pragma, _spellings_outside, _trimmed


def judged(analysis):
    """For each reported line its `#`, and why it stays, or None where nothing keeps it."""
    by_line = inclusions(analysis)
    found = []
    for at in unneeded(analysis):
        if _include_item(analysis, at).toks[2].kind != "Header":
            found.append((at, b"computed"))
        else:
            found.append((at, next(filter(None, (why(analysis, it) for it in by_line[at])), None)))
    return found


def edits(analysis):
    """The edits, by path; the counts are of lines."""
    by_file = {}
    for at, reason in judged(analysis):
        if reason is None:
            by_file.setdefault(at.file, []).append(at)
    return [Edit(analysis.kept[n].path, _trimmed(analysis, analysis.kept[n], lines), len(lines)) for n, lines in by_file.items()]


def stays(analysis):
    """What `trim stays` prints behind the `edited` lines."""
    return b"".join(b"stays " + analysis.place(at).words() + b" " + reason + b"\n" for at, reason in judged(analysis) if reason)


def why(analysis, inclusion):
    """Why an inclusion keeps its line, if it does: what is named first is asked first."""
    if not _holds_whole_externals(inclusion):
        return b"fragment"
    outside = _spellings_outside(analysis, inclusion)
    for event in inclusion.unit.text.events[inclusion.enter:inclusion.leave]:
        if event.kind in ("Defined", "Undefined") and event.name.text in outside:
            return b"name " + event.name.text
    k = defined_for_others(inclusion)
    if k is not None:
        return b"definition " + inclusion.unit.text.toks[k].text
    return b"pragma" if _reaches_pragma(analysis, inclusion) else None


def defined_for_others(inclusion):
    """The first token that names a function with its body, or an object that is not declared alone, of external linkage."""
    unit, bound = inclusion.unit, inclusion.unit.bound
    bodies = {body.name for body in bound.functions}
    for child in unit.tree.children:
        if not isinstance(child, Node) or not inclusion.begin <= child.first < inclusion.end:
            continue
        alone = has_extern(unit, child) and not has_initializer(child)
        for k in tokens(child):
            if k in bound.declares and bound.linkage[bound.entity[k]] == "External":
                if k in bodies or (bound.kind[bound.entity[k]] == "Object" and not alone):
                    return k
    return None


def has_extern(unit, external):
    """Is `extern` among the specifiers of the declaration itself, wherever among them?"""
    return any(unit.text.toks[k].text == b"extern" for specs in external.children if isinstance(specs, Node) and specs.production == "specs"
               for mod in mods(specs) for k in mod.children if not isinstance(k, Node))


def mods(specs):
    for child in specs.children:
        if isinstance(child, Node) and child.production == "mod":
            yield child
        elif isinstance(child, Node) and child.production == "main":
            yield from mods(child)


def has_initializer(node):
    return any(child.production == "init" or has_initializer(child) for child in node.children if isinstance(child, Node))


def tokens(node):
    for child in node.children:
        if isinstance(child, Node):
            yield from tokens(child)
        else:
            yield child
