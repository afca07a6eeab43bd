"""The unified diff of a file that a command edits, in bytes.

Nothing is searched: an edit respells names or puts items of a list elsewhere, so line k of the new text stands where line k of the old
one did. Where the numbers of lines differ all the same, what stands between the lines that both begin with and those that both end
with is one change."""

AROUND = 3


def lines_of(text):
    """The lines with their line feeds; the last one may lack its own. Nothing but a line feed ends a line."""
    pieces = text.split(b"\n")
    return [it + b"\n" for it in pieces[:-1]] + [it for it in pieces[-1:] if it]


def rows_of(old, new):
    """Pairs of lines that stand against each other, None where nothing does."""
    olds, news = lines_of(old), lines_of(new)
    if len(olds) == len(news):
        return list(zip(olds, news))
    most = min(len(olds), len(news))
    head = next((k for k in range(most) if olds[k] != news[k]), most)
    tail = next((k for k in range(most - head) if olds[-1 - k] != news[-1 - k]), most - head)
    gone, come = olds[head:len(olds) - tail], news[head:len(news) - tail]
    same = [(it, it) for it in olds]
    return same[:head] + [(it, None) for it in gone] + [(None, it) for it in come] + same[len(olds) - tail:]


def hunks_of(rows):
    """Maximal runs of rows that have a changed one at most AROUND rows away: each with the number of its first row."""
    changed = [k for k, (old, new) in enumerate(rows) if old != new]
    found = []
    for k in changed:
        first, end = max(0, k - AROUND), min(len(rows), k + AROUND + 1)
        if found and first <= found[-1][1]:
            found[-1][1] = end
        else:
            found.append([first, end])
    return [(first, rows[first:end]) for first, end in found]


def signed(sign, line):
    return sign + line + (b"" if line.endswith(b"\n") else b"\n\\ No newline at end of file\n")


def text_of(rows):
    """The lines of a hunk: of changed ones that stand together first the old ones, then the new ones."""
    text, gone, come = [], [], []
    for old, new in [*rows, (b"", b"")]:
        if old == new:
            text += [*gone, *come] + ([signed(b" ", old)] if old else [])
            gone, come = [], []
        else:
            gone += [] if old is None else [signed(b"-", old)]
            come += [] if new is None else [signed(b"+", new)]
    return b"".join(text)


def count_of(rows, side):
    return sum(row[side] is not None for row in rows)


def span_of(before, count):
    """`START,COUNT` of a side of a hunk; where it has no line there START is the line before."""
    return b"%d,%d" % (before + (count > 0), count)


def name_of(path):
    """A path as a header line says it: a tab ends one with a blank, and quotes are around one with other odd bytes."""
    if any(it < 0x20 or it == 0x7F for it in path) or path.startswith(b'"'):
        said = "".join(chr(it) if 0x20 <= it < 0x7F and it not in b'"\\' else f"\\{it:03o}" for it in path)
        return b'"' + said.encode() + b'"'
    return path + (b"\t" if b" " in path else b"")


def unified(path, old, new):
    """The diff of one file, which `patch -p0` and `git apply -p0` take; nothing where it stays as it is."""
    rows, text = rows_of(old, new), []
    at, before = 0, [0, 0]
    for first, run in hunks_of(rows):
        before = [before[side] + count_of(rows[at:first], side) for side in (0, 1)]
        counts = [count_of(run, side) for side in (0, 1)]
        text.append(b"@@ -%s +%s @@\n" % (span_of(before[0], counts[0]), span_of(before[1], counts[1])) + text_of(run))
        at, before = first + len(run), [before[side] + counts[side] for side in (0, 1)]
    name = name_of(path)
    return b"--- " + name + b"\n+++ " + name + b"\n" + b"".join(text) if text else b""
