"""The places of a text that another one has otherwise: what an editor is asked to replace."""

import re

PIECE = re.compile(rb"[A-Za-z0-9_]+|[\x80-\xff]+|.", re.S)


def differing(old, new):
    """(LINE, FIRST, END, TEXT): of line LINE the bytes from FIRST to END become TEXT. None where lines came or went."""
    olds, news = old.split(b"\n"), new.split(b"\n")
    if len(olds) != len(news):
        return None
    return [(number, *it) for number, pair in enumerate(zip(olds, news)) if pair[0] != pair[1] for it in of_line(*pair)]


def of_line(old, new):
    """By names, where both lines have as many pieces; else all from the first to the last byte that differs."""
    olds, news = PIECE.findall(old), PIECE.findall(new)
    if len(olds) == len(news):
        at = 0
        for one, other in zip(olds, news):
            if one != other:
                yield at, at + len(one), other
            at += len(one)
        return
    most = min(len(old), len(new))
    head = next((k for k in range(most) if old[k] != new[k]), most)
    tail = next((k for k in range(most - head) if old[-1 - k] != new[-1 - k]), most - head)
    yield head, len(old) - tail, new[head:len(new) - tail]
