"""Makes random calls on a class table, and holds what the table tells against a plain model.

`calls.py make SEED COUNT FILE` writes the calls of COUNT tables; `calls.py check SEED COUNT OUTPUT` reads what
the driver printed for them. The model is the definition: characters joined one by one, parts cut where a
character is joined with a token's first one.
"""

import random
import sys


class Model:
    """The tokens and the pairs of lists of characters that must stay alike."""

    def __init__(self):
        self.tokens = []
        self.links = []

    def roots(self):
        parent = {}

        def find(p):
            while p in parent:
                p = parent[p]
            return p

        for xs, ys in self.links:
            for p, q in zip(xs, ys):
                p, q = find(p), find(q)
                if p != q:
                    parent[p] = q
        return find

    def parts(self):
        """Each part with the root of its class, in order of file and place."""
        find = self.roots()
        starts = {find((f, a)) for f, a, _ in self.tokens}
        parts = []
        for f, a, n in self.tokens:
            cuts = [k for k in range(n) if k == 0 or find((f, a + k)) in starts] + [n]
            parts += [((f, a + k, m - k), find((f, a + k))) for k, m in zip(cuts, cuts[1:])]
        return sorted(parts)

    def resize(self, place, length):
        """Each member of the class of the part at the place gets the length; all else moves."""
        parts = self.parts()
        root = next(r for (f, a, n), r in parts if (f, a) == place)
        members = [part for part, r in parts if r == root]

        def moved(f, a):
            return a + sum(length - n for g, b, n in members if g == f and b < a)

        new = {}
        for (f, a, n), r in parts:
            new[f, a, n] = f, moved(f, a), length if r == root else n
        self.tokens = [(f, moved(f, a), moved(f, a + n) - moved(f, a)) for f, a, n in self.tokens]
        by_root = {}
        for part, r in parts:
            by_root.setdefault(r, []).append(new[part])
        self.links = [(characters([group[0]]), characters([part])) for group in by_root.values() for part in group[1:]]
        return new


def characters(parts):
    return [(f, a + k) for f, a, n in parts for k in range(n)]


def layout(rng, count):
    """Tokens with gaps between them, in no order."""
    ends = {}
    tokens = []
    for _ in range(count):
        f = rng.randint(1, 3)
        a = ends.get(f, 0) + rng.randint(0, 3)
        n = rng.choice([1, 1, 2, 2, 3, 4, 5])
        ends[f] = a + n
        tokens.append((f, a, n))
    rng.shuffle(tokens)
    return tokens


def one_table(rng):
    """The calls of one table as (word, numbers), and what is asked behind each."""
    model = Model()
    waiting = layout(rng, rng.randint(2, 9))
    steps = []
    for _ in range(rng.randint(3, 22)):
        choice = rng.random()
        if waiting and (choice < 0.45 or len(model.tokens) < 2):
            token = waiting.pop()
            model.tokens.append(token)
            steps.append(("add", token))
        elif choice < 0.9:
            pair = equal_lists(rng, model.tokens)
            if pair:
                model.links.append(tuple(characters(side) for side in pair))
                steps.append(("join", pair))
        elif not waiting:
            (f, a, n), _ = rng.choice(model.parts())
            length = rng.randint(1, 6)
            before = model.parts()
            steps.append(("ask", before))
            new = model.resize((f, a), length)
            steps.append(("resize", (f, a, length)))
            steps.append(("moved", (before, new, model.parts())))
    steps.append(("ask", model.parts()))
    return steps


def equal_lists(rng, tokens):
    """Two lists of whole tokens with as many characters."""
    for _ in range(40):
        xs = [rng.choice(tokens) for _ in range(rng.randint(1, 4))]
        ys = [rng.choice(tokens) for _ in range(rng.randint(1, 4))]
        if xs != ys and sum(t[2] for t in xs) == sum(t[2] for t in ys):
            return xs, ys
    return None


def written(steps):
    for word, what in steps:
        if word == "add":
            yield "1 %d %d %d" % what
        elif word == "join":
            yield "2 " + "  ".join("%d %s" % (len(s), " ".join("%d %d %d" % t for t in s)) for s in what)
        elif word == "resize":
            yield "3 %d %d %d" % what
        else:
            parts = what if word == "ask" else what[2]
            for f, a in characters([p for p, _ in parts]):
                yield "4 %d %d" % (f, a)
            for c in range(sum(n for (_, _, n), _ in parts) + 1):
                yield "5 %d" % c
    yield "6"


class Wrong(Exception):
    pass


def read_table(lines, parts):
    """The class number of each part, where the printed parts and walks are those of the model."""
    numbers = {}
    for (f, a, n), root in parts:
        for _ in range(n):
            words = next(lines).split()
            if words[:1] != ["p"] or tuple(map(int, words[1:4])) != (f, a, n):
                raise Wrong("part %s: %s" % ((f, a, n), words))
            if numbers.setdefault(root, int(words[4])) != int(words[4]):
                raise Wrong("two numbers of one class: %s" % words)
    if len(set(numbers.values())) != len(numbers):
        raise Wrong("one number of two classes")
    walks = {}
    for c in range(sum(n for (_, _, n), _ in parts) + 1):
        walks[c] = []
        while True:
            line = next(lines)
            if line == "e":
                break
            walks[c].append(tuple(map(int, line.split()[1:])))
    for root, number in numbers.items():
        if sorted(walks[number]) != [p for p, r in parts if r == root]:
            raise Wrong("walk %d: %s" % (number, walks[number]))
    if sum(map(len, walks.values())) != len(parts):
        raise Wrong("a walk of no class")
    return {part: numbers[root] for part, root in parts}


def check(rng, count, lines):
    figures = {"tables": 0, "adds": 0, "joins": 0, "resizes": 0, "cuts": 0, "parts": 0, "classes": 0}
    for k in range(count):
        told = None
        added = 0
        for word, what in one_table(rng):
            added += word == "add"
            if word in ("add", "join", "resize"):
                figures[word + "s"] += 1
                continue
            parts = what if word == "ask" else what[2]
            now = read_table(lines, parts)
            if word == "moved":
                before, new, _ = what
                for part, _ in before:
                    if told[part] != now[new[part]]:
                        raise Wrong("table %d: the number of %s went from %d to %d" % (k, part, told[part], now[new[part]]))
            told = now
        if next(lines) != "t":
            raise Wrong("table %d: too much" % k)
        figures["tables"] += 1
        figures["parts"] += len(parts)
        figures["classes"] += len({r for _, r in parts})
        figures["cuts"] += len(parts) - added
    return figures


def main(word, seed, count, path):
    rng = random.Random(int(seed))
    if word == "make":
        with open(path, "w") as out:
            for _ in range(int(count)):
                out.write("\n".join(written(one_table(rng))) + "\n")
            out.write("0\n")
        return 0
    with open(path) as read:
        lines = iter([line.rstrip("\n") for line in read])
    try:
        print(" ".join("%s=%d" % item for item in check(rng, int(count), lines).items()))
    except (Wrong, StopIteration) as wrong:
        print("differs: %s" % wrong)
        return 1
    return 0


if __name__ == "__main__":
    sys.exit(main(*sys.argv[1:]))
