"""Section 2 of the cases: what the scope document says and the Rust has no counterpart for.

Usage: document.py CASES ANSWERS. README.md beside this file has the form of both.
The answers come from a plain model that is written here from the document's sentences: a pool is a list of words, a map a dict from
bytes to numbers, and nothing is shared with the Rattle code or with the Rust. Every number is drawn from one fixed start.
"""
import sys

MOST = 4096
# how much memory there is for the labels and values of an image
LENT = 4100
# the largest number of 32 bits, and of a length
LARGEST = (1 << 32) - 1
LONGEST = (1 << 64) - 1


class Draw:
    """Numbers that are the same in every run: xorshift with a fixed start."""

    def __init__(self):
        self.state = 0x9E3779B97F4A7C15

    def bits(self, count):
        self.state ^= self.state << 13 & (1 << 64) - 1
        self.state ^= self.state >> 7
        self.state ^= self.state << 17 & (1 << 64) - 1
        return self.state >> 64 - count

    def below(self, end):
        return self.bits(40) % end

    def of(self, all):
        return all[self.below(len(all))]


draw = Draw()


# The pool

def capacity(pool):
    return min(MOST, len(pool) // 5 - 1)


def is_sound(pool):
    n = pool[0]
    if n > capacity(pool) or pool[1] or pool[3] or pool[4]:
        return False
    word = lambda c, k: pool[5 * c + k]
    for c in range(1, n + 1):
        if word(c, 0) >= 512 or word(c, 2) > n or word(c, 3) > n or word(c, 4) >= c:
            return False
        if word(c, 0) < 256 and (word(c, 1) != 0 or word(c, 2) == 0):
            return False
    of_parent = [[] for _ in range(n + 1)]
    for x in range(1, n + 1):
        of_parent[word(x, 4)].append(x)
    for c in range(n + 1):
        chain = []
        x = word(c, 2)
        while x:
            if x > n or len(chain) == n:
                return False
            chain.append(x)
            x = word(x, 3)
        if sorted(chain) != of_parent[c]:
            return False
        labels = [word(x, 0) % 256 for x in chain]
        if any(a >= b for a, b in zip(labels, labels[1:])):
            return False
    return True


def record_paths(pool):
    """A record spells its parent's path and its own label, and parents are numbered below."""
    paths = [b""]
    for c in range(1, pool[0] + 1):
        paths.append(paths[pool[5 * c + 4]] + bytes([pool[5 * c] % 256]))
    return paths


def pool_map(pool):
    return {path: pool[5 * c + 1] for c, path in enumerate(record_paths(pool)) if c and pool[5 * c] >= 256}


def prefixes(keys):
    return {key[:end] for key in keys for end in range(1, len(key) + 1)}


def push(pool, key, value):
    """The refusal, or 0; the pool is changed as the document says."""
    if len(pool) < 5:
        return 1
    if not is_sound(pool):
        return 2
    if not key:
        return 3
    path = [0]
    for label in key:
        x = pool[5 * path[-1] + 2]
        while x and pool[5 * x] % 256 != label:
            x = pool[5 * x + 3]
        if not x:
            break
        path.append(x)
    missing = key[len(path) - 1:]
    n = pool[0]
    if n + len(missing) > capacity(pool):
        return 4
    parent = path[-1]
    for label in missing:
        n += 1
        at = 5 * parent + 2
        while pool[at] and pool[5 * pool[at]] % 256 < label:
            at = 5 * pool[at] + 3
        pool[5 * n:5 * n + 5] = [label, 0, 0, pool[at], parent]
        pool[at] = n
        parent = n
    pool[0] = n
    pool[5 * parent] = pool[5 * parent] % 256 + 256
    pool[5 * parent + 1] = value
    return 0


# The image

def nodes_of(entries):
    return [b""] + sorted(prefixes(entries), key=lambda path: (len(path), path))


def image_of(entries):
    nodes = nodes_of(entries)
    below = {path: 0 for path in nodes}
    for path in nodes[1:]:
        below[path[:-1]] += 1
    bits = [1, 0]
    for path in nodes:
        bits += [1] * below[path] + [0]
    words = [0] * ((len(bits) + 63) // 64)
    for at, bit in enumerate(bits):
        words[at // 64] += bit << at % 64
    labels = [path[-1] + (256 if path in entries else 0) for path in nodes[1:]]
    return labels, [entries.get(path, 0) for path in nodes[1:]], words


def meets_conditions(labels, values, words):
    n = len(labels)
    if n > MOST or len(values) != n or len(words) != (2 * n + 3 + 63) // 64:
        return False
    every = [words[at // 64] >> at % 64 & 1 for at in range(64 * len(words))]
    bits = every[:2 * n + 3]
    if any(every[2 * n + 3:]) or bits[0] != 1 or sum(bits) != n + 1:
        return False
    parents = {}
    ones = zeros = 0
    for bit in bits:
        if bit:
            ones += 1
            parents[ones] = zeros
        else:
            zeros += 1
    for m in range(2, n + 2):
        if not 1 <= parents[m] <= m - 1 or labels[m - 2] >= 512:
            return False
        if m > 2 and parents[m - 1] == parents[m] and labels[m - 3] % 256 >= labels[m - 2] % 256:
            return False
        if labels[m - 2] < 256 and (values[m - 2] != 0 or m not in [parents[x] for x in range(2, n + 2)]):
            return False
    return True


def image_map(labels, values, words):
    """The map whose image this is, or None: the keys are spelled by the parents, and their image is compared."""
    n = len(labels)
    if n > MOST or len(values) != n or len(words) != (2 * n + 3 + 63) // 64:
        return None
    paths = [None, b""]
    zeros = 0
    for at in range(2 * n + 3):
        if words[at // 64] >> at % 64 & 1:
            if at > 0:
                if not 1 <= zeros < len(paths) or len(paths) - 2 >= n or labels[len(paths) - 2] >= 512:
                    return None
                paths.append(paths[zeros] + bytes([labels[len(paths) - 2] % 256]))
        else:
            zeros += 1
    if len(paths) != n + 2 or len(set(paths)) != len(paths):
        return None
    entries = {paths[m]: values[m - 2] for m in range(2, n + 2) if labels[m - 2] >= 256}
    return entries if image_of(entries) == (labels, values, words) else None


# The lookup that does not test the image (02, R-7)

def untested(labels, values, words, query):
    """A value, "none" or "refused". The bits are cut at their zeros: run k stands behind the k-th zero, and its ones are numbered on from those before it."""
    n = len(labels)
    if n > MOST or len(values) != n or len(words) != (2 * n + 3 + 63) // 64:
        return "refused"
    runs = "".join(str(words[at // 64] >> at % 64 & 1) for at in range(2 * n + 3)).split("0")
    node = 1
    for label in query:
        if node >= len(runs):
            return "none"
        before = sum(len(run) for run in runs[:node])
        counted = [m for m in range(before + 1, before + len(runs[node]) + 1) if node < m <= n + 1]
        fitting = [m for m in counted if labels[m - 2] < 512 and labels[m - 2] % 256 == label]
        if not fitting:
            return "none"
        node = min(fitting)
    return values[node - 2] if node > 1 and 256 <= labels[node - 2] < 512 else "none"


# The list

class Book:
    """What stands in the lent memory, and the cases that were put to it."""

    def __init__(self):
        self.cases = []
        self.answers = []
        self.pool = [0] * 20500
        self.length = 0
        self.labels = [0] * LENT
        self.values = [0] * LENT
        self.words = [0] * 130
        self.scratch = [0] * MOST
        self.lengths = [0, 0, 0]
        self.place = 1
        self.cursor = (0, None, None)
        self.map = None

    def title(self, text):
        self.cases.append("# " + text)
        self.answers.append("# " + text)

    def case(self, letter, number, data, *answer):
        self.cases.append(" ".join([letter, "%08x" % number] + ([data.hex()] if data else [])))
        self.answers.append(" ".join([letter] + [str(word) for word in answer if word != ""]))

    # pools

    def lent(self):
        return self.pool[:self.length]

    def take(self, length):
        self.length = length
        self.case("z", length, b"", length)

    def reset(self, length):
        self.length = length
        if length < 5:
            self.case("n", length, b"", "refused", 1)
            return
        self.pool[:5] = [0] * 5
        self.case("n", length, b"", "done")

    def store(self, at, words):
        self.pool[at:at + len(words)] = words
        self.case("w", at, b"".join(word.to_bytes(4, "big") for word in words), len(words))

    def read(self, at, count):
        self.case("d", at, bytes([count]), *self.pool[at:at + count])

    def pushed(self, letter, number, data, key, value):
        words = self.lent()
        refusal = push(words, key, value)
        if refusal:
            self.case(letter, number, data, "refused", refusal)
            return
        self.pool[:self.length] = words
        self.case(letter, number, data, "done")

    def push(self, key, value):
        self.pushed("p", value, key, key, value)

    def push_long(self, length):
        self.pushed("Q", length, b"", b"a" * length, length)

    def refusal(self):
        if self.length < 5:
            return 1
        return 0 if is_sound(self.lent()) else 2

    def use_count(self):
        if self.refusal():
            self.case("u", 0, b"", "refused", self.refusal())
            return
        self.case("u", 0, b"", self.pool[0])

    def build(self, lengths=None):
        """Into buffers that are as long as can be, or of these lengths: labels, values, words, scratch."""
        data = b"".join(length.to_bytes(2, "big") for length in lengths or ())
        labels, values, words, scratch = lengths or (LENT, LENT, 130, MOST)
        if self.refusal():
            self.case("b", 0, data, "refused", self.refusal())
            return
        n = self.pool[0]
        if labels < n or values < n or words < (2 * n + 3 + 63) // 64 or scratch < n:
            self.case("b", 0, data, "refused", 5)
            return
        self.image(pool_map(self.lent()))
        assert self.lengths[0] == n
        paths = record_paths(self.lent())
        self.scratch[:n] = sorted(range(1, n + 1), key=lambda c: (len(paths[c]), paths[c]))
        self.case("b", 0, data, n)

    def image(self, entries):
        labels, values, words = image_of(entries)
        self.lengths = [len(labels), len(values), len(words)]
        self.labels[:len(labels)] = labels
        self.values[:len(values)] = values
        self.words[:len(words)] = words
        self.map = entries

    def slices(self):
        a, b, c = self.lengths
        return self.labels[:a], self.values[:b], self.words[:c]

    def show(self):
        labels, values, words = self.slices()
        self.case("i", 0, b"", "labels", *labels, "values", *values, "words", *words)

    def read_buffers(self, at, count):
        """What stands in the memory of an image, lent or not."""
        words = []
        for name in ("labels", "values", "words", "scratch"):
            words += [name] + getattr(self, name)[at:at + count]
        self.case("h", at, bytes([count]), *words)

    # images

    def stand(self, labels, values, words):
        """Lends these slices as an image, whatever they are."""
        self.end_with((len(labels), labels), (len(values), values), (len(words), words))

    def end_with(self, *parts):
        """Lends as many labels, values and words as the parts say, the last of them stored first."""
        for (letter, slot, width), (count, entries) in zip((("L", self.labels, 2), ("V", self.values, 4), ("B", self.words, 8)), parts):
            slot[count - len(entries):count] = entries
            self.case(letter, count, b"".join(entry.to_bytes(width, "big") for entry in entries), count)
        self.lengths = [count for count, _ in parts]
        self.map = image_map(*self.slices())
        assert (self.map is not None) == meets_conditions(*self.slices()), self.slices()

    def asked(self, letter, number, data, answer, *tests):
        """The image's refusal first, then those of the tests, then the answer."""
        if self.map is None:
            return self.case(letter, number, data, "refused", 6)
        for refusal, holds in tests:
            if holds():
                return self.case(letter, number, data, "refused", refusal)
        self.case(letter, number, data, *answer())

    def accept(self):
        self.asked("A", 0, b"", lambda: ["accepted"])

    def exact(self, key):
        self.asked("e", 0, key, lambda: [self.map.get(key, "none")])

    def exact_long(self, length):
        self.asked("E", length, b"", lambda: [self.map.get(b"a" * length, "none")])

    def untested_case(self, letter, number, data, query):
        answer = untested(*self.slices(), query)
        assert self.map is None or answer == self.map.get(query, "none"), query
        self.case(letter, number, data, *(["refused", 6] if answer == "refused" else [answer]))

    def untested(self, query):
        self.untested_case("j", 0, query, query)

    def untested_long(self, length):
        self.untested_case("J", length, b"", b"a" * length)

    def untested_table(self, bits):
        """Every query of at most three letters a and b, with these bits in place of the image's."""
        labels, values, _ = self.slices()
        answers = [untested(labels, values, [bits], query) for query in SHORT]
        self.case("T", bits, b"", "".join("." if answer == "none" else str(answer) for answer in answers))

    def is_prefix(self, query):
        self.asked("y", 0, query, lambda: ["yes" if self.longer(query) else "no"])

    def set_value(self, key, value):
        had = self.map.get(key, "none") if self.map is not None else None
        self.asked("s", value, key, lambda: [had])
        if self.map and key in self.map:
            self.map[key] = value
            self.values[nodes_of(self.map).index(key) - 1] = value

    def beginning(self, query):
        return sorted(key for key in self.map if key.startswith(query))

    def longer(self, query):
        return [key for key in self.beginning(query) if key != query]

    def longest_prefix(self, query, room=None):
        letter, number = ("l", 0) if room is None else ("M", room)

        def answer():
            keys = self.beginning(query)
            if not keys:
                return ["none"]
            common = keys[0][:shared(keys)]
            if not common:
                return ["none"]
            if room is not None and room < len(common):
                return ["refused", 8]
            return [len(common), common.hex()]
        self.asked(letter, number, query, answer)

    def common_after(self, query, seen):
        def answer():
            lengths = [end for end in range(1, len(query) + 1) if end > seen and query[:end] in self.map]
            if not lengths:
                return ["none"]
            part = query[:lengths[0]]
            return [len(part), self.map[part], part.hex()]
        letter, number = ("k", seen) if seen <= LARGEST else ("U", LONGEST - seen)
        self.asked(letter, number, query, answer)

    # places

    def at_place(self, letter, number, data, answer, *tests):
        self.asked(letter, number, data, answer, (7, lambda: not 1 <= self.place <= len(nodes_of(self.map))), *tests)

    def stand_at(self, place):
        self.place = place
        self.case("R", place, b"", place)

    def resume(self, node):
        fits = self.map is not None and 1 <= node <= len(nodes_of(self.map))
        self.asked("r", node, b"", lambda: ["at", node], (7, lambda: not fits))
        if fits:
            self.place = node

    def path(self):
        return nodes_of(self.map)[self.place - 1]

    def told(self, path):
        if path not in nodes_of(self.map):
            return "none"
        below = bool(self.longer(path))
        return "both" if below and path in self.map else "match" if path in self.map else "prefix"

    def move(self, path):
        self.place = nodes_of(self.map).index(path) + 1

    def peek(self, label):
        self.at_place("t", label, b"", lambda: [self.told(self.path() + bytes([label])), "at", self.place])

    def query(self, label):
        def answer():
            path = self.path() + bytes([label])
            told = self.told(path)
            if told != "none":
                self.move(path)
            return [told, "at", self.place]
        self.at_place("a", label, b"", answer)

    def query_until(self, query):
        def answer():
            told = None
            for index, label in enumerate(query):
                path = self.path() + bytes([label])
                told = self.told(path)
                if told == "none":
                    return ["err", index, "at", self.place]
                self.move(path)
            return [told, "at", self.place] if told else ["err", 0, "at", self.place]
        self.at_place("q", 0, query, answer)

    def goto(self):
        def answer():
            path = self.path()
            keys = self.longer(path)
            if not keys:
                return ["ok", 0, "at", self.place]
            common = keys[0][:shared(keys)]
            self.move(common)
            return ["ok" if common in keys else "err", len(common) - len(path), "at", self.place]
        self.at_place("o", 0, b"", answer)

    def value(self):
        self.at_place("v", 0, b"", lambda: [self.map.get(self.path(), "none")])

    def prefix(self):
        self.at_place("x", 0, b"", lambda: [len(self.path()), len(self.path()), self.path().hex()])

    def prefix_into(self, room):
        self.at_place("X", room, b"", lambda: [len(self.path()), self.path().hex()], (8, lambda: room < len(self.path())))

    # cursors: kind 0 is predictive and 1 is postfix; the node given last is 0 before the first step, and a finished cursor has no top

    def cursor_at(self, kind, top, last):
        self.cursor = (kind, top, last)
        self.case("C", last or 0, bytes([kind]) + (b"" if top is None else top.to_bytes(4, "big")), *self.cursor_told())

    def cursor_told(self):
        kind, top, last = self.cursor
        return [kind, "finished"] if top is None else [kind, "top", top, "last", last]

    def cursor_set(self):
        kind, top, last = self.cursor
        path = nodes_of(self.map)[top - 1]
        return self.longer(path) if kind else self.beginning(path)

    def bad_cursor(self):
        kind, top, last = self.cursor
        nodes = nodes_of(self.map)
        if top is None:
            return False
        if not 1 <= top <= len(nodes):
            return True
        return last != 0 and not (1 <= last <= len(nodes) and nodes[last - 1] in self.cursor_set())

    def step(self):
        def answer():
            kind, top, last = self.cursor
            if top is None:
                return ["end"] + self.cursor_told()
            nodes = nodes_of(self.map)
            rest = [key for key in self.cursor_set() if not last or key > nodes[last - 1]]
            if not rest:
                self.cursor = (kind, None, None)
                return ["end"] + self.cursor_told()
            node = nodes.index(rest[0]) + 1
            self.cursor = (kind, top, node)
            return [node, self.map[rest[0]]] + self.cursor_told()
        self.asked("S", 0, b"", answer, (7, self.bad_cursor))

    def given_key(self):
        kind, top, last = self.cursor
        nodes = nodes_of(self.map)
        return nodes[last - 1][len(nodes[top - 1]) if kind else 0:]

    def has_no_key(self):
        return self.bad_cursor() or not self.cursor[2]

    def cursor_key(self, room):
        self.asked("K", room, b"", lambda: [len(self.given_key()), self.given_key().hex()],
                   (7, self.has_no_key), (8, lambda: room < len(self.given_key())))

    def cursor_key_rooms(self):
        """Into buffers one short, exact and one more; where there is no key, into none and into many bytes."""
        if self.map is None or self.has_no_key():
            rooms = (0, 9)
        else:
            rooms = (len(self.given_key()) - 1, len(self.given_key()), len(self.given_key()) + 1)
        for room in rooms:
            self.cursor_key(room)


def shared(keys):
    """How long the longest common prefix of these keys is."""
    length = 0
    while all(len(key) > length and key[length] == keys[0][length] for key in keys):
        length += 1
    return length


# Pools

JUNK = [4294967295, 17, 300, 512, 5]
BASE = [(b"ab", 7), (b"ac", 8), (b"b", 3), (b"bcd", 0), (b"bd", 4294967295)]


def lengths_of_pools(book):
    book.title("pools of 0 to 15 words")
    for length in range(16):
        book.store(0, JUNK * 4)
        book.reset(length)
        book.use_count()
        book.push(b"", 1)
        book.push(b"a", 9)
        book.push(b"b", 1)
        book.push(b"ab", 1)
        book.push(b"a", 0)
        book.read(0, 20)
        book.build()
    book.title("pools of 20479 to 20500 words: the capacity is 4094, 4095 and then 4096")
    for length in range(20479, 20500 + 1):
        book.store(20470, JUNK * 6)
        book.reset(length)
        room = min(MOST, length // 5 - 1)
        book.push_long(room + 1)
        book.use_count()
        book.push_long(room)
        book.use_count()
        if length in (20479, 20484, 20485, 20500):
            book.push(b"b", 1)
            book.push(b"aaa", 5)
            book.push_long(room)
            book.push_long(room - 1)
            book.push_long(room + 1)
        book.read(20470, 30)
    book.title("4,096 bytes are accepted and 4,097 are refused; the image of the deepest chain")
    book.reset(20485)
    book.push_long(4097)
    book.use_count()
    book.push_long(4096)
    book.use_count()
    book.build((4095, 4096, 130, 4096))
    book.build((4096, 4095, 130, 4096))
    book.build((4096, 4096, 128, 4096))
    book.build((4096, 4096, 129, 4095))
    book.build((4096, 4096, 129, 4096))
    book.read_buffers(4090, 10)
    book.read_buffers(125, 5)
    for length in (0, 1, 4095, 4096, 4097):
        book.exact_long(length)
    deepest_chain(book)
    # the same slices ended otherwise: 4,097 nodes, which no image has, then 4,095
    book.end_with((4097, [97, 353]), (4097, [0, 4097]), (129, [5]))
    book.accept()
    book.exact_long(4097)
    book.end_with((4095, [353]), (4095, [4095]), (129, [0]))
    book.accept()
    book.exact_long(4095)
    book.exact_long(4094)
    book.end_with((4095, []), (4095, []), (129, [1 << 63]))
    book.accept()
    book.end_with((4095, []), (4095, []), (128, []))
    book.accept()
    book.title("a key of 4,096 into a pool that has room for 4,096 less one")
    book.reset(20485)
    book.push(b"b", 1)
    book.push_long(4096)
    book.push_long(4095)
    book.use_count()


def deepest_chain(book):
    """The searches on the image of the one key of 4,096 bytes, from one end to the other."""
    book.is_prefix(b"a" * 50)
    book.common_after(b"a" * 50, 0)
    for place in (0, 4098, LARGEST, 4097):
        book.stand_at(1)
        book.resume(place)
        book.value()
    book.goto()
    book.stand_at(4096)
    book.goto()
    book.stand_at(1)
    book.goto()
    book.prefix_into(4095)
    book.prefix_into(4096)
    book.longest_prefix(b"a", 4095)
    book.longest_prefix(b"a", 4096)
    for kind, top in ((0, 4096), (0, 1), (1, 2)):
        book.cursor_at(kind, top, 0)
        book.step()
        book.cursor_key(4094)
        book.cursor_key(4096)
        book.step()


def capacity_of_three(book):
    book.title("A of the document at capacity 3, with words that belong to no record")
    for extra in range(5):
        book.store(0, JUNK * 6)
        book.reset(20 + extra)
        book.push(b"ab", 7)
        book.push(b"b", 3)
        book.use_count()
        book.push(b"c", 1)
        book.push(b"abc", 1)
        book.push(b"", 1)
        book.push(b"ab", 9)
        book.push(b"a", 0)
        book.read(0, 30)
        book.build()
        book.read_buffers(0, 5)
    book.title("B of the document: its root has first child 2")
    book.reset(20)
    book.push(b"b", 3)
    book.push(b"ab", 7)
    book.read(0, 20)
    book.build((2, 3, 1, 3))
    book.build((3, 2, 1, 3))
    book.build((3, 3, 0, 3))
    book.build((3, 3, 1, 2))
    book.read_buffers(0, 5)
    book.build((3, 3, 1, 3))
    book.read_buffers(0, 5)
    book.show()


def judged(book, words, must=None):
    """A pool of these words: what it is taken for, and what a push and a build make of it."""
    book.store(0, words)
    book.take(len(words))
    if must is not None:
        assert is_sound(words) == must, words
    book.use_count()
    book.push(b"", 1)
    book.push(b"ad", 6)
    book.push(b"b", 3)
    book.read(0, min(len(words) + 1, 80))
    book.build()
    book.read_buffers(0, 10)


def base_pool(room):
    words = [0] * (5 * (room + 1))
    for key, value in BASE:
        assert push(words, key, value) == 0
    return words


def damaged_pools(book):
    # records: 1 a, 2 ab, 3 ac, 4 b, 5 bc, 6 bcd, 7 bd
    sound = base_pool(9)
    book.title("a sound pool of seven records, then the same with one condition broken at a time")
    judged(book, sound, True)
    breaks = [
        ("n one more than there are records", {0: 8}),
        ("n one less", {0: 6}),
        ("n 0", {0: 0}),
        ("n above capacity", {0: 10}),
        ("n far above capacity", {0: 4294967295}),
        ("n 4097", {0: 4097}),
        ("the root has a value word", {1: 1}),
        ("the root has a next sibling", {3: 1}),
        ("the root has a parent", {4: 1}),
        ("the root has no first child", {2: 0}),
        ("the root's first child is above n", {2: 8}),
        ("the root's first child is beyond the pool", {2: 4294967295}),
        ("the root's first child is a record of another chain", {2: 2}),
        ("the root's chain begins at its second child", {2: 4}),
        ("word 0 is 512", {5 * 3: 512}),
        ("word 0 is the largest number", {5 * 3: 4294967295}),
        ("a first child above n", {5 * 3 + 2: 8}),
        ("a first child beyond the pool", {5 * 3 + 2: 4000000000}),
        ("a next sibling above n", {5 * 3 + 3: 8}),
        ("a next sibling beyond the pool", {5 * 7 + 3: 858993460}),
        ("a parent that is the record itself", {5 * 7 + 4: 7}),
        ("a parent above its record", {5 * 2 + 4: 3}),
        ("a parent that is another record", {5 * 3 + 4: 2}),
        ("no value and a value word", {5 * 1 + 1: 1}),
        ("no value and no child", {5 * 3: 99, 5 * 3 + 1: 0}),
        ("sibling labels equal", {5 * 3: 256 + 98}),
        ("sibling labels fall", {5 * 3: 256 + 97}),
        ("labels of the root's chain fall", {5 * 1: 98, 5 * 4: 256 + 97}),
        ("a record that is its own next sibling", {5 * 3 + 3: 3}),
        ("a chain of two that loops", {5 * 3 + 3: 2}),
        ("the last of the root's chain leads back to its first", {5 * 4 + 3: 1}),
        ("a record that is its own first child", {5 * 6 + 2: 6}),
        ("a first child that is the record's parent", {5 * 6 + 2: 5}),
        ("a chain that joins another", {5 * 4 + 3: 2}),
        ("a record on no chain", {5 * 2 + 3: 0}),
        ("a record on two chains", {5 * 6 + 2: 7}),
        ("a chain that is longer than the records", {5 * 7 + 3: 5}),
    ]
    for name, changes in breaks:
        words = list(sound)
        for at, word in changes.items():
            words[at] = word
        book.title(name)
        judged(book, words, False)
    book.title("sound pools that no pushes here made: numbers in another order, values replaced, words of unused records anything")
    for key, word in ((5 * 3 + 1, 0), (5 * 2 + 1, 4294967295), (5 * 8, 999), (5 * 9 + 4, 77), (5 * 1, 256 + 97)):
        words = list(sound)
        words[key] = word
        judged(book, words, True)
    for _ in range(12):
        judged(book, renumbered(draw.of((sound, base_pool(7)))))
    book.title("one word of a sound pool changed at random")
    for _ in range(60):
        words = list(sound)
        words[draw.below(40)] = draw.of((0, 1, 2, 3, 4, 5, 6, 7, 8, 97, 98, 353, 354, 355, 356, 512, 4294967295))
        judged(book, words)
    book.title("two words of a sound pool exchanged at random")
    for _ in range(40):
        words = list(sound)
        a, b = draw.below(40), draw.below(40)
        words[a], words[b] = words[b], words[a]
        judged(book, words)
    book.title("pools of at most two records with any small words")
    for _ in range(120):
        n = draw.below(3)
        words = [n, 0, draw.below(n + 1), 0, 0]
        for c in range(1, 3):
            label = draw.of((5, 6)) + draw.of((0, 256, 256))
            value = draw.of((0, 0, 4)) if label < 256 else draw.of((0, 4))
            words += [label, value, draw.of((0, c + 1)) % 3, draw.of((0, c + 1)) % 3, draw.below(c)]
        judged(book, words)


def renumbered(words):
    """The same pool with its records in another order, each parent still below its children."""
    n = words[0]
    order = []
    ready = [0]
    while ready:
        c = ready.pop(draw.below(len(ready)))
        order.append(c)
        ready += [x for x in range(1, n + 1) if words[5 * x + 4] == c]
    number = {c: at for at, c in enumerate(order)}
    made = list(words)
    for c in range(n + 1):
        at = 5 * number[c]
        made[at:at + 5] = words[5 * c:5 * c + 2] + [number[x] for x in words[5 * c + 2:5 * c + 5]]
    made[0] = n
    assert is_sound(made)
    return made


# Images

def asked_all(book):
    """Every call of the searches, once."""
    book.accept()
    book.exact(b"ab")
    book.is_prefix(b"a")
    book.longest_prefix(b"")
    book.common_after(b"abc", 0)
    book.common_after(b"", 9)
    book.set_value(b"ab", 5)
    book.resume(1)
    book.stand_at(2)
    book.peek(98)
    book.query(98)
    book.query_until(b"b")
    book.goto()
    book.value()
    book.prefix()
    book.cursor_at(0, 1, 0)
    book.step()
    book.cursor_key(9)
    book.cursor_at(1, None, None)
    book.step()


def damaged_images(book):
    entries = dict(BASE)
    labels, values, words = image_of(entries)
    book.title("an image of seven nodes, then the same damaged: every call answers 6 and nothing else")
    book.stand(labels, values, words)
    asked_all(book)
    book.show()
    breaks = [
        ("no words", labels, values, []),
        ("a word too many", labels, values, words + [0]),
        ("a value too few", labels, values[:-1], words),
        ("a value too many", labels, values + [0], words),
        ("a label too few", labels[:-1], values, words),
        ("a label too many", labels + [353], values, words),
        ("an unused bit set", labels, values, [words[0] + (1 << 17)]),
        ("the last unused bit set", labels, values, [words[0] + (1 << 63)]),
        ("the first bit 0", labels, values, [words[0] - 1]),
        ("the second bit 1", labels, values, [words[0] + 2]),
        ("a one too few", labels, values, [words[0] - 4]),
        ("a one too many", labels, values, [words[0] + (1 << 4)]),
        ("an entry of 512", labels[:3] + [512] + labels[4:], values, words),
        ("an entry of 65535", labels[:3] + [65535] + labels[4:], values, words),
        ("sibling labels equal", [97, 353] + labels[2:], values, words),
        ("sibling labels fall", [98, 353] + labels[2:], values, words),
        ("no value and a value entry", labels, [1] + values[1:], words),
        ("no value and no child", labels[:2] + [98] + labels[3:], values[:2] + [0] + values[3:], words),
        ("nothing at all", [], [], []),
    ]
    for name, *slices in breaks:
        book.title(name)
        book.stand(*slices)
        assert book.map is None, name
        asked_all(book)
        book.show()
    book.title("one bit, label or value of an image changed at random")
    for _ in range(150):
        slices = [list(labels), list(values), list(words)]
        which = draw.below(4)
        if which == 0:
            slices[0][draw.below(7)] = draw.of((97, 98, 99, 100, 353, 354, 355, 356, 511, 512))
        elif which == 1:
            slices[1][draw.below(7)] = draw.of((0, 1, 4294967295))
        elif which == 2:
            slices[2][0] ^= 1 << draw.below(18)
        else:
            # two bits, so that ones and zeros stay as many
            ones = [at for at in range(2, 17) if words[0] >> at & 1]
            zeros = [at for at in range(2, 17) if not words[0] >> at & 1]
            slices[2][0] ^= 1 << draw.of(ones) ^ 1 << draw.of(zeros)
        book.stand(*slices)
        book.accept()
        book.exact(b"bcd")
        book.longest_prefix(b"")
    book.title("any bits with few nodes")
    for _ in range(150):
        n = draw.below(5)
        word = draw.bits(2 * n + 3)
        if draw.below(3):
            word |= 1
            word &= ~2
        book.stand([draw.of((1, 2, 257, 258, 259, 260)) for _ in range(n)], [draw.of((0, 0, 7)) for _ in range(n)], [word])
        book.accept()


FRUIT = {b"a": 0, b"app": 1, b"apple": 2, b"better": 3, b"application": 4}
SMALL = ({}, {b"ab": 7, b"b": 3}, dict(BASE), {b"a": 1, b"abc": 2, b"abd": 0})


def every_place(book, nodes):
    for place in (0, 1, nodes, nodes + 1, LARGEST):
        book.resume(place)
        book.stand_at(place)
        book.value()
        book.prefix()
        book.peek(98)
        book.goto()
        book.stand_at(place)
        book.query(98)
        book.stand_at(place)
        book.query_until(b"")
        book.query_until(b"bx")
        for room in range(4):
            book.prefix_into(room)


def every_cursor(book, nodes):
    """Fresh, finished, given at each node of and outside its set, and at numbers that are no node's."""
    numbers = list(range(nodes + 2)) + [LARGEST]
    for kind in (0, 1):
        book.cursor_at(kind, None, None)
        book.step()
        book.step()
        book.cursor_key(9)
        for top in numbers:
            for last in numbers:
                book.cursor_at(kind, top, last)
                book.cursor_key_rooms()
                book.step()
                book.step()


def places_and_cursors(book):
    for entries in SMALL:
        book.title("places and cursors of any number on the image of %d keys" % len(entries))
        book.stand(*image_of(entries))
        nodes = len(image_of(entries)[0]) + 1
        every_place(book, nodes)
        for query in (b"", b"a", b"ab", b"b", b"x"):
            for room in range(4):
                book.longest_prefix(query, room)
        every_cursor(book, nodes)


def places_elsewhere(book):
    """A place or a cursor is numbers alone, so it is taken to another image, and back after what that image made of it."""
    for entries in SMALL:
        nodes = len(image_of(entries)[0]) + 1
        for other in SMALL + (None,):
            book.title("the places of %d keys used with another image" % len(entries))
            for place in (nodes, (nodes + 1) // 2):
                book.stand(*image_of(entries))
                book.resume(place)
                book.prefix()
                # no map's image: the word of bits is not there
                book.stand(*([], [], []) if other is None else image_of(other))
                book.resume(place)
                book.peek(97)
                book.value()
                book.prefix()
                book.query(98)
                book.query_until(b"cd")
                book.goto()
                book.prefix()
                book.stand(*image_of(entries))
                book.prefix()
    for entries in SMALL:
        for kind in (0, 1):
            book.title("cursors that stepped on the image of %d keys, used with another image" % len(entries))
            for steps in range(1, len(entries) + 2):
                for other in SMALL:
                    book.stand(*image_of(entries))
                    book.cursor_at(kind, 1, 0)
                    for _ in range(steps):
                        book.step()
                    book.stand(*image_of(other))
                    book.cursor_key(9)
                    book.step()


def seen_lengths(book):
    for entries in SMALL + (FRUIT,):
        book.title("common prefixes of %d keys after any length" % len(entries))
        book.stand(*image_of(entries))
        for query in (b"", b"a", b"abc", b"applications", b"bcd"):
            end = len(query)
            for seen in sorted({0, 1, 2, max(end, 1) - 1, end, end + 1, 1 << 31, LARGEST, LONGEST - LARGEST, LONGEST - 1, LONGEST}):
                book.common_after(query, seen)


def values_set(book):
    book.title("values set: the old one is answered, and that one entry is written")
    book.stand(*image_of(dict(BASE)))
    for key in (b"bcd", b"bd", b"", b"a", b"bc", b"bcde", b"x"):
        for value in (0, LARGEST, 5, 5):
            book.set_value(key, value)
            book.exact(key)
        book.show()


SHORT = [bytes(97 + (turn >> length - 1 - at & 1) for at in range(length)) for length in range(4) for turn in range(1 << length)]


def rules_alone(book):
    """The lookup without a test, on slices for each rule alone."""
    book.title("map A of the document, by the lookup that does not test the image")
    book.stand(*image_of({b"ab": 7, b"b": 3}))
    for query in SHORT:
        book.untested(query)
    one = [353], [9]
    two = [353, 353], [5, 6]
    three = [97, 354, 354], [0, 3, 7]
    for name, labels, values, words, queries in (
            ("unused bits set", *three, [45 + (1 << 9) + (1 << 63)], (b"", b"ab", b"b", b"abb")),
            ("the first bit 0: of node 1's children 1 and 2 the first is not above it", *one, [6], (b"a", b"aa")),
            ("the first bit 0, and the only child is numbered 1", *one, [2], (b"a", b"aa")),
            ("the second bit 1: node 1's zero is behind node 2's one", *two, [11], (b"a", b"aa", b"aaa")),
            ("no zero at all, though the word has zeros behind the bits", [], [], [7], (b"", b"a")),
            ("one zero, so that node 2's is missing", *one, [29], (b"a", b"aa")),
            ("children above n+1, and a run that ends with the bits", [354], [9], [29], (b"a", b"b")),
            ("only zeros", *two, [0], (b"a", b"")),
            ("equal labels: the lowest number", *two, [13], (b"a", b"aa")),
            ("the lowest number is taken though only the other goes on", [97, 97, 354], [0, 0, 8], [77], (b"a", b"ab")),
            ("labels that fall", [354, 353], [5, 6], [13], (b"a", b"b")),
            ("entries of 512 and more match no label", [609, 865, 353], [1, 2, 3], [29], (b"a", b"aa")),
            ("an entry of 65535", [65535, 511], [1, 2], [13], (b"\xff", b"\xfe")),
            ("an entry of 512 has no value", [512, 256], [1, 2], [13], (b"\x00", b"\x00\x00")),
            ("an entry below 256 has no value, whatever stands there", [97, 354], [1, 2], [5], (b"a", b"ab")),
            ("n = 0", [], [], [1], (b"", b"a")),
            ("a value too few", *three[:1], [0, 3], [45], (b"", b"ab")),
            ("a value too many", *three[:1], [0, 3, 7, 0], [45], (b"", b"ab")),
            ("a word too few", *three, [], (b"", b"ab")),
            ("a word too many", *three, [45, 0], (b"", b"ab"))):
        book.title(name)
        book.stand(labels, values, words)
        for query in queries:
            book.untested(query)


def most_nodes(book):
    """4,096 nodes in any bits, and one node more."""
    book.title("4,096 nodes besides the root, looked up without a test: the deepest chain, then other bits with its entries")
    n = MOST
    book.reset(20485)
    book.push_long(n)
    book.build()
    chain = book.slices()[2]
    ones = (1 << 64) - 1
    for words in ([], [chain[0] - 1] + chain[1:], [chain[0] + 2] + chain[1:], [ones] * 129, [0] * 129, [ones ^ word for word in chain], chain[:128] + [ones]):
        if words:
            book.end_with((n, []), (n, []), (129, words))
        for length in (0, 1, 2, 63, 64, 65, 4095, 4096, 4097):
            book.untested_long(length)
    book.title("4,097 nodes besides the root")
    book.end_with((n + 1, [353]), (n + 1, [1]), (129, chain))
    for length in (0, 1, 4097):
        book.untested_long(length)


def all_bits(book):
    """Every sequence of bits for 3 and for 4 nodes besides the root, and those that begin with 1, 0 once more with other entries; of some also with unused bits set."""
    for labels, step in (([353, 353, 354], 1), ([97, 354, 353], 1), ([609, 98, 353], 1), ([353, 354, 97, 353], 1), ([98, 353, 865, 354], 4)):
        n = len(labels)
        book.title("all bits of %d nodes%s with the entries %s" % (n, " that begin with 1, 0" * (step > 1), labels))
        book.end_with((n, labels), (n, list(range(2, n + 2))), (1, [1]))
        for bits in range(1, 1 << 2 * n + 3, step) if step > 1 else range(1 << 2 * n + 3):
            book.untested_table(bits + (0xFFF << 2 * n + 3) * (bits % 8 == 5))


def lookups_damaged(book):
    """Up to two entries or bits changed in an image of two words, and queries that go by them."""
    book.title("images changed at random, looked up without a test")
    entries = {bytes(draw.of(b"abc") for _ in range(1 + draw.below(5))): draw.below(9) for _ in range(40)}
    image = image_of(entries)
    labels, values, words = image
    book.stand(*image)
    for _ in range(60):
        slices = [list(labels), list(values), list(words)]
        for _ in range(draw.below(3)):
            which = draw.below(3)
            if which == 0:
                slices[0][draw.below(len(labels))] = draw.of((97, 98, 99, 353, 354, 355, 511, 512, 609, 65535))
            else:
                at = draw.below(2 * len(labels) + 12)
                slices[2][at // 64 % len(words)] ^= 1 << at % 64
        # what is there already is not stored again
        book.end_with(*((len(new), [] if new == there else new) for new, there in zip(slices, book.slices())))
        for _ in range(12):
            key = draw.of(sorted(entries))
            book.untested(key[:draw.below(len(key) + 2)] + bytes(draw.of(b"abc") for _ in range(draw.below(2))))


def lookups_accepted(book):
    """On the images of maps it answers what `exact_match` answers."""
    for entries in SMALL + (FRUIT, {bytes([label]): label for label in range(256)}):
        book.title("the lookup without a test beside the exact match, on the image of %d keys" % len(entries))
        book.stand(*image_of(dict(entries)))
        for key in sorted({b"", b"a", b"ab", b"appl", b"zz"} | {key[:end] for key in entries for end in (1, 2, len(key))} | {key + b"x" for key in list(entries)[:9]}):
            book.exact(key)
            book.untested(key)


def main():
    book = Book()
    book.title("Section 2: answered by the scope document alone")
    lengths_of_pools(book)
    capacity_of_three(book)
    damaged_pools(book)
    damaged_images(book)
    places_and_cursors(book)
    places_elsewhere(book)
    seen_lengths(book)
    values_set(book)
    rules_alone(book)
    most_nodes(book)
    all_bits(book)
    lookups_damaged(book)
    lookups_accepted(book)
    for name, lines in zip(sys.argv[1:], (book.cases, book.answers)):
        with open(name, "w") as file:
            file.write("".join(line + "\n" for line in lines))


main()
