"""The meaning of types, values and rows, for sweeps: what streams a port has, what a value carries on them, and what the rows of a trace carry.
It follows docs/RULES.md and docs/FORMATS.md, and has none of the program's code. A series is a text: an element is written as the value that
its word stands for, so the bits that a Union ignores are left out, and a semicolon ends each packet."""
import re


# ---- texts that rules spell

def all_spelled(rules):
    """The texts that the first rule spells. A capital letter stands for the rule of its place in the alphabet, and a semicolon ends a line."""
    texts, done = ["A"], []
    while texts:
        text = texts.pop(0)
        found = re.search("[A-Z]", text)
        if not found:
            done.append(text.replace(";", ";\n"))
            continue
        choices = rules[ord(found.group()) - ord("A")].split("|")
        texts = [text[:found.start()] + choice + text[found.end():] for choice in choices] + texts
    return done


# ---- types and their streams

class Type:
    """A type: its kind, its parts by name, and for a Stream its settings."""

    def __init__(self, kind, parts=(), settings=None, bits=0):
        self.kind, self.parts, self.settings, self.bits = kind, list(parts), settings or {}, bits

    def width(self):
        """The bits of an element. A Stream has none in it."""
        if self.kind == "Bits":
            return self.bits
        widths = [part.width() for _, part in self.parts] or [0]
        if self.kind == "Group":
            return sum(widths)
        if self.kind == "Union":
            return index_width(len(self.parts)) + max(widths)
        return 0


def index_width(count):
    return max(count - 1, 0).bit_length()


def read_type(words):
    """The type that these words spell, which are taken."""
    kind = words.pop(0)
    if kind == "Null":
        return Type(kind)
    words.pop(0)
    if kind == "Bits":
        made = Type(kind, bits=int(words.pop(0)))
    else:
        parts, settings = [], {}
        while words[0] != ")":
            name = words.pop(0)
            words.pop(0)
            if kind != "Stream" or name == "data" or name == "user":
                parts.append((name, read_type(words)))
            else:
                settings[name] = words.pop(0)
            if words[0] == ",":
                words.pop(0)
        made = Type(kind, parts, settings)
    words.pop(0)
    return made


class Node:
    """A Stream in a type: where it stands, its element, its lanes and dimensions."""

    def __init__(self, path, ltype, parent):
        parts = dict(ltype.parts)
        self.path, self.element, self.parent = path, parts["data"], parent
        self.sync = ltype.settings.get("synchronicity", "Sync")
        self.own_dims = int(ltype.settings.get("dimensionality", 0))
        self.throughput = float(ltype.settings.get("throughput", 1)) * (parent.throughput if parent else 1)
        adds = parent and self.sync in ("Sync", "Desync")
        self.dims = self.own_dims + (parent.dims if adds else 0)
        self.level = ltype.settings.get("complexity", "4")
        self.user = parts["user"].width() if "user" in parts else 0
        self.lanes = -int(-self.throughput // 1)
        self.width = self.element.width()
        self.is_physical = self.width > 0 or self.user > 0 or ltype.settings.get("keep") == "true"
        self.reversed = (ltype.settings.get("direction") == "Reverse") != bool(parent and parent.reversed)

    def has_root(self):
        return self.parent is None or self.sync in ("Desync", "FlatDesync")

    def head(self):
        way = "reverse" if self.reversed else "forward"
        return (f"stream {self.path} lanes {self.lanes} dims {self.dims} level {self.level} "
                f"element {self.width} user {self.user} {way}")


def nodes_of(ltype, path=(), parent=None):
    """The Streams of a type, each before those inside it."""
    if ltype.kind == "Stream":
        node = Node(".".join(path) or "-", ltype, parent)
        return [node] + nodes_of(node.element, path, node)
    if ltype.kind == "Bits":
        return []
    return [node for name, part in ltype.parts for node in nodes_of(part, path + (name,), parent)]


def heads_in(text):
    """The lines of the streams in what `split` writes."""
    return [line for line in text.split("\n") if line.startswith("stream ")]


# ---- values

def read_value(words):
    """The value that these words spell, which are taken: a number, a name, a list, a dict of fields, or a variant with its value."""
    word = words.pop(0)
    if word == "[":
        return read_until(words, "]", read_value)
    if word == "{":
        return dict(read_until(words, "}", lambda rest: (rest.pop(0), rest.pop(0), read_value(rest))[::2]))
    if words and words[0] == "(":
        words.pop(0)
        return (word, read_value(words), words.pop(0))[:2]
    return int(word, 0) if word[0].isdigit() else word


def read_until(words, close, read):
    things = []
    while words[0] != close:
        things.append(read(words))
        if words[0] == ",":
            words.pop(0)
    words.pop(0)
    return things


def roots_of(text):
    """The members of each root of a value's text."""
    roots = {}
    for line in text.split("\n"):
        if line.startswith("root "):
            head, _, rest = line.partition(" = ")
            words, members = re.findall(r"[A-Za-z0-9_]+|[^\sA-Za-z0-9_]", rest.rstrip(";")), []
            while words:
                members.append(read_value(words))
            roots[head[5:]] = members
    return roots


def text_of_element(ltype, value):
    """The meaning of the word of this value."""
    if ltype.kind == "Bits":
        return str(value)
    if ltype.kind == "Group":
        return "".join(text_of_element(part, value[name]) + "," for name, part in ltype.parts)
    if ltype.kind == "Union":
        tag = [name for name, _ in ltype.parts].index(value[0])
        return f"{tag}:" + text_of_element(ltype.parts[tag][1], value[1])
    return ""


def parts_at(ltype, value, names):
    """The value at a path inside this one, in a list; none where another variant is chosen."""
    if not names:
        return [value]
    part = dict(ltype.parts)[names[0]]
    if ltype.kind == "Group":
        return parts_at(part, value[names[0]], names[1:])
    return parts_at(part, value[1], names[1:]) if value[0] == names[0] else []


def replaced(depth, nest, of_element):
    """A nest in which each element, so deep, gives any number of parts."""
    if depth == 0:
        return of_element(nest)
    return [[part for inside in nest for part in replaced(depth - 1, inside, of_element)]]


def elements_in(depth, nests):
    return [element for nest in nests for element in (elements_in(depth - 1, nest) if depth else [nest])]


# ---- items

def text_of_items(dims, items):
    """The text of the sequences that these items make."""
    open_lists = [[] for _ in range(dims + 1)]
    for kind, number in items:
        if kind == "element":
            open_lists[0].append(str(number))
        else:
            ended = "[" + ", ".join(open_lists[number]) + "]"
            open_lists[number] = []
            open_lists[number + 1].append(ended)
    return " ".join(open_lists[dims])


def are_whole(dims, items):
    """Whether each end stands behind the ends below it, and nothing is left open."""
    closed = dims
    for kind, number in items:
        if kind == "end" and number > closed:
            return False
        closed = 0 if kind == "element" else number + 1
    return closed == dims


# ---- rows

def signals_of(row):
    """Whether a row has valid and ready, and its payload's numbers by their keys."""
    valid, ready, *words = row.split(" ")
    payload = {word[0]: int(word[2:] or "0", 16) for word in words if "=" in word}
    return valid == "1", valid == "1" and ready == "1", payload


def text_of_word(ltype, word):
    """The meaning of the lowest bits of a word by a type, the bits that are left, and whether each tag that is read names a variant."""
    if ltype.kind == "Bits":
        return str(word % (1 << ltype.bits)), word >> ltype.bits, True
    if ltype.kind == "Group":
        text, are_named = "", True
        for _, part in ltype.parts:
            inside, word, is_named = text_of_word(part, word)
            text, are_named = text + inside + ",", are_named and is_named
        return text, word, are_named
    if ltype.kind == "Union":
        width, rest = index_width(len(ltype.parts)), word >> ltype.width()
        tag, inside = word % (1 << width), word >> width
        if tag >= len(ltype.parts):
            return "", rest, False
        text, _, is_named = text_of_word(ltype.parts[tag][1], inside)
        return f"{tag}:" + text, rest, is_named
    return "", word, True


def items_of_row(node, payload):
    """The items of a row with valid: the word of an element, or the dimension whose sequence ends."""
    start, end = payload.get("s", 0), payload.get("e", node.lanes - 1)
    for lane in range(node.lanes):
        if payload.get("b", -1) >> lane & 1 and start <= lane <= end:
            yield "element", payload.get("d", 0) >> (lane * node.width) & ((1 << node.width) - 1)
        for dim in range(node.dims):
            if payload.get("l", 0) >> (lane * node.dims + dim) & 1:
                yield "end", dim


def text_of_row(node, payload):
    """The items of a row with valid, and whether each tag that is read names a variant."""
    text, are_named = "", True
    for kind, number in items_of_row(node, payload):
        if kind == "element":
            said, _, is_named = text_of_word(node.element, number)
            text, are_named = text + said + " " + ("" if node.dims else ";"), are_named and is_named
        else:
            text += text_of_end(node.dims, number)
    return text, are_named


def text_of_end(dims, dim):
    return f"/{dim}" + (";" if dim + 1 == dims else "")


class Port:
    """A port by the text of its type."""

    def __init__(self, spelled):
        self.nodes = nodes_of(read_type(re.findall(r"[A-Za-z0-9_.]+|[():,]", spelled.replace(":", " : "))))
        self.streams = [node for node in self.nodes if node.is_physical]

    def heads(self):
        return [node.head() for node in self.streams]

    def view(self, node, roots):
        """The packets of a Stream: nests of its elements, as deep as its dimensions."""
        if node.has_root():
            return roots[node.path]
        base = 0 if node.parent.path == "-" else len(node.parent.path.split("."))
        names = node.path.split(".")[base:] if node.path != node.parent.path else []

        def of_element(element):
            """The child's part in an element of the parent: one list, or with no dimension one element."""
            return parts_at(node.parent.element, element, names)

        around = self.view(node.parent, roots)
        if node.sync == "Flatten":
            return [part for element in elements_in(node.parent.dims, around) for part in of_element(element)]
        return [part for nest in around for part in replaced(node.parent.dims, nest, of_element)]

    def series_of_value(self, text):
        """The series that a value carries, stream by stream, each with an LF behind it."""
        roots = roots_of(text)

        def said(node, depth, nest):
            if depth == 0:
                return text_of_element(node.element, nest) + " " + ("" if node.dims else ";")
            return "".join(said(node, depth - 1, part) for part in nest) + text_of_end(node.dims, depth - 1)

        return "".join("".join(said(node, node.dims, nest) for nest in self.view(node, roots)) + "\n"
                       for node in self.streams)

    def shown(self, rows):
        """The series of the transfers done, stream by stream, each with an LF behind it."""
        series = ["" for _ in self.streams]
        for number, row in enumerate(rows):
            stream = number % len(self.streams)
            _, is_done, payload = signals_of(row)
            series[stream] += text_of_row(self.streams[stream], payload)[0] if is_done else ""
        return "".join(text + "\n" for text in series)

    def user_lines(self, rows):
        """The lines of the user words of the transfers done."""
        lines = ""
        for stream, node in enumerate(self.streams):
            if node.user:
                done = [row.partition("u=")[2] for row in rows[stream::len(self.streams)] if signals_of(row)[1]]
                lines += f"// users {node.path}" + "".join(" " + word for word in done) + "\n"
        return lines


# ---- outcomes

def rows_of(port, text):
    return text.split("\n")[2 + len(port.streams):-1]


def disagreement(port, known, series):
    """Where no value goes along any further: right after the node of the last stream that some value has in full, at the packet behind those
    that go along."""
    def shared(carried):
        return next((place for place, pair in enumerate(zip(carried, series)) if pair[0] != pair[1]), min(len(carried), len(series)))

    front = series[:max(shared(carried) for carried in known.values())]
    streams = front.count("\n")
    last = port.nodes.index(port.streams[streams - 1])
    packet = front.rpartition("\n")[2].count(";")
    return f"disagree stream {port.nodes[last + 1].path} packet {packet}\n"


# ---- comparisons

def items_done(node, rows):
    """The items of the transfers done in the rows of a stream, each with its cycle."""
    for cycle, row in enumerate(rows):
        _, is_done, payload = signals_of(row)
        for item in items_of_row(node, payload) if is_done else ():
            yield item, cycle


def place_behind(dims, items):
    """The place behind these items: for each dimension from the outermost down, how many sequences of it have ended since a greater one did, and
    then how many elements came since the last end."""
    counts = [0] * (dims + 1)
    for kind, number in items:
        rank = 0 if kind == "element" else number + 1
        counts = [0] * rank + [counts[rank] + 1] + counts[rank + 1:]
    return ".".join(str(count) for count in reversed(counts))


def said_of_item(node, items, number):
    """An item as `compare` names it."""
    if number >= len(items):
        return "end"
    kind, word = items[number]
    if kind == "end":
        return f"close {word}"
    digits = (node.width + 3) // 4
    return f"0x{word:0{digits}x}" if digits else "0x"


def difference(node, want, done):
    """The line of the first difference of a stream; nothing where there is none."""
    got = [item for item, _ in done]
    for number in range(max(len(want), len(got))):
        if want[number:number + 1] != got[number:number + 1]:
            cycle = done[number][1] if number < len(done) else "-"
            place = place_behind(node.dims, want[:number])
            wanted, came = said_of_item(node, want, number), said_of_item(node, got, number)
            return f"differs stream {node.path} item {number} at {place} cycle {cycle} want {wanted} got {came}\n"
    return ""


def compared(port, wanted, text):
    """The answer of `compare` to a trace, beside the value of which this other trace has the items."""
    lines, count = "", len(port.streams)
    for stream, node in enumerate(port.streams):
        want = [item for item, _ in items_done(node, rows_of(port, wanted)[stream::count])]
        lines += difference(node, want, list(items_done(node, rows_of(port, text)[stream::count])))
    return (6, lines, "") if lines else (0, "same\n", "")


# ---- changes

def changes(port, text):
    """The text of a trace with each change: each bit of each signal, in each row. A row whose valid turns to 1 has the payload that its stream
    shows first."""
    lines = text.split("\n")
    head, count = 2 + len(port.streams), len(port.streams)
    for number, row in enumerate(lines[head:-1]):
        stream = number % count
        shown = [other.split(" ", 2)[2] for other in lines[head:-1][stream::count] if other[0] == "1"]
        for other in changed_rows(port.streams[stream], row, shown):
            yield "\n".join(lines[:head + number] + [other] + lines[head + number + 1:])


def changed_rows(node, row, shown):
    """A row with each change of one bit."""
    valid, ready, payload = row.split(" ", 2)
    if valid == "1":
        yield f"0 {ready} -"
    elif shown:
        yield f"1 {ready} {shown[0]}"
    yield f"{valid} {1 - int(ready)} {payload}"
    if valid == "1":
        words = payload.split(" ")
        for place, word in enumerate(words):
            for other in changed_words(node, word):
                yield " ".join([valid, ready] + words[:place] + [other] + words[place + 1:])


def changed_words(node, word):
    """A signal with each of its bits changed."""
    key, digits = word.split("=")
    widths = {"d": node.lanes * node.width, "l": node.lanes * node.dims, "s": index_width(node.lanes),
              "e": index_width(node.lanes), "b": node.lanes, "u": node.user}
    for place in range(len(digits)):
        for bit in range(4):
            if 4 * (len(digits) - 1 - place) + bit < widths[key]:
                changed = f"{int(digits[place], 16) ^ (1 << bit):x}"
                yield f"{key}={digits[:place]}{changed}{digits[place + 1:]}"
