"""The meaning of monitors: the text of one, which texts are monitors, and what a monitor says of a trace. It follows docs/FORMATS.md and
docs/TESTBENCHES.md, and has none of the program's code. An item is one of meanings.py: an element with its word, or the end of a sequence with its
dimension. A statement is its kind, and for a loop or a test the list of statements inside."""
import re
from collections import namedtuple

from meanings import index_width, items_done, items_of_row, signals_of

LOOPS, TESTS, NEEDS = ("lanes", "dims"), ("active", "last"), ("element", "end")

# A monitor: the heads of its streams, and for each the items that it expects and the statements of its process.
Monitor = namedtuple("Monitor", "heads want processes")


class Head:
    """The numbers of a stream, by its line in the header of a trace."""

    def __init__(self, line):
        words = line.split(" ")
        self.line, self.path = line, words[1]
        self.lanes, self.dims, self.width = (int(words[place]) for place in (3, 5, 9))
        level = int(words[7].split(".")[0])
        present = {"data": (self.width > 0, self.lanes * self.width),
                   "last": (self.dims > 0, self.lanes * self.dims),
                   "stai": (level >= 6 and self.lanes > 1, index_width(self.lanes)),
                   "endi": ((level >= 5 or self.dims > 0) and self.lanes > 1, index_width(self.lanes)),
                   "strb": (level >= 7 or self.dims > 0, self.lanes)}
        self.signals = {signal: width for signal, (is_there, width) in present.items() if is_there}
        self.digits = max(self.width, 6)

    def name(self, word):
        return f"\\{self.path}.{word}\\"


# ---- the text

def word_of(head, item):
    """The digits of an item in a table; those of its end where there is none."""
    if item is None:
        return "0" * (head.digits + 2)
    kind, number = item
    return ("10" if kind == "element" else "01") + f"{number:0{head.digits}b}"


def test_of_lane(head):
    tests = {"stai": f"to_integer(unsigned({head.name('stai')})) <= lane",
             "endi": f"lane <= to_integer(unsigned({head.name('endi')}))",
             "strb": f"{head.name('strb')}(lane) = '1'"}
    return " and ".join(test for signal, test in tests.items() if signal in head.signals) or "true"


def word_of_lane(head):
    """The word of the element in a lane, as the text of a test."""
    if head.width == 0:
        return '"10000000"'
    bits = f"{head.name('data')}(lane * {head.width} + {head.width - 1} downto lane * {head.width})"
    return '"10" & ' + (f'"{"0" * (6 - head.width)}" & ' if head.width < 6 else "") + bits


def first_line(head, kind):
    """The line with which a statement begins."""
    want = f"{head.name('want')}(place) = "
    return {"lanes": f"for lane in 0 to {head.lanes - 1} loop",
            "dims": f"for dim in 0 to {head.dims - 1} loop",
            "active": f"if {test_of_lane(head)} then",
            "last": f"if {head.name('last')}(lane * {head.dims} + dim) = '1' then",
            "element": f"if {want}{word_of_lane(head)} then",
            "end": f'if {want}"01" & std_logic_vector(to_unsigned(dim, {head.digits})) then'}[kind]


def rest_of_need(head):
    return ["  place := place + 1;", "else", f"  {head.name('fault')} <= '1';", "  wait;", "end if;"]


def last_line(kind):
    return "end loop;" if kind in LOOPS else "end if;"


def lines_of(head, statements, indent):
    for kind, *inside in statements:
        rest = rest_of_need(head) if kind in NEEDS else [last_line(kind)]
        yield indent + first_line(head, kind)
        yield from lines_of(head, inside[0] if inside else [], indent + "  ")
        yield from (indent + line for line in rest)


def ports_of(head):
    yield f"{head.name('ready')} : in std_logic"
    yield f"{head.name('valid')} : in std_logic"
    for signal, width in head.signals.items():
        yield f"{head.name(signal)} : in std_logic_vector({width - 1} downto 0)"
    yield f"{head.name('fault')} : out std_logic := '0'"


def front_of(heads):
    """The lines before the tables, behind the comments."""
    ports = ["clk : in std_logic"] + [port for head in heads for port in ports_of(head)]
    return ["library ieee;", "use ieee.std_logic_1164.all;", "use ieee.numeric_std.all;", "entity watch is", "  port (",
            *(f"    {port};" for port in ports[:-1]), f"    {ports[-1]}", "  );", "end entity;", "architecture check of watch is"]


def front_of_table(head, last):
    return [f"  type {head.name('items')} is array (0 to {last}) of std_logic_vector({head.digits + 1} downto 0);",
            f"  constant {head.name('want')} : {head.name('items')} := ("]


def entry(head, number, item):
    return f'    {number} => "{word_of(head, item)}"' + ("" if item is None else ",")


def front_of_process(head):
    return ["  process", "    variable place : natural := 0;", "  begin", "    loop",
            f"      wait until rising_edge(clk) and {head.name('valid')} = '1' and {head.name('ready')} = '1';"]


BACK_OF_PROCESS = ["    end loop;", "  end process;"]


def text_of(monitor):
    lines = ["-- tydi-watch 1", *("-- " + head.line for head in monitor.heads), *front_of(monitor.heads)]
    for head, items in zip(monitor.heads, monitor.want):
        lines += front_of_table(head, len(items))
        lines += [entry(head, number, item) for number, item in enumerate([*items, None])] + ["  );"]
    lines.append("begin")
    for head, statements in zip(monitor.heads, monitor.processes):
        lines += front_of_process(head) + list(lines_of(head, statements, " " * 6)) + BACK_OF_PROCESS
    return "\n".join(lines + ["end architecture;"]) + "\n"


# ---- the monitor of a value

def statements_of(head):
    """Those of the process that looks at each item."""
    inside = [("active", [("element",)])]
    return [("lanes", inside + ([("dims", [("last", [("end",)])])] if head.dims else []))]


def monitor_of(text):
    """The monitor that expects what a trace carries, and no more."""
    heads = heads_of(text)
    want = [[item for item, _ in items_done(head, rows)] for head, rows in zip(heads, rows_of_each(text))]
    return Monitor(heads, want, [statements_of(head) for head in heads])


def heads_of(text):
    return [Head(line) for line in text.split("\n") if line.startswith("stream ")]


def rows_of_each(text):
    """The rows of a trace, stream by stream."""
    count = len(heads_of(text))
    rows = text.split("\n")[2 + count:-1]
    return [rows[stream::count] for stream in range(count)]


# ---- which texts are monitors

class NotForm(Exception):
    """The text is no monitor: the offset of the first line that is not of the form."""


class Reader:
    """The lines of a text, which are taken one by one."""

    def __init__(self, text):
        self.text, self.offset = text, 0

    def line(self):
        end = self.text.find("\n", self.offset)
        return self.refuse() if end < 0 else self.text[self.offset:end]

    def refuse(self):
        raise NotForm(self.offset)

    def take(self, *wanted):
        for line in wanted:
            if self.line() != line:
                self.refuse()
            self.offset += len(line) + 1


NUMBER = "(0|[1-9][0-9]*)"
HEAD = re.compile(rf"-- stream (-|[A-Za-z0-9_.]+) lanes {NUMBER} dims {NUMBER} level ([0-9.]+) element {NUMBER} user {NUMBER} (forward|reverse)")


def is_head(line):
    """Whether this is the comment of a stream. Paths and levels are looked at as far as the sweeps change them."""
    found = HEAD.fullmatch(line)
    if not found:
        return False
    path, level = found.group(1), found.group(4)
    lanes, dims, width, user = (int(found.group(place)) for place in (2, 3, 5, 6))
    names = path == "-" or all(re.fullmatch("[A-Za-z](_?[A-Za-z0-9])*", name) for name in path.split("."))
    return names and re.fullmatch("[1-8]", level) is not None and 1 <= lanes <= 128 and dims <= 32 and width <= 4096 and user <= 4096


def read_heads(reader):
    heads = []
    while reader.line().startswith("-- "):
        line = reader.line()
        if not is_head(line) or line.split(" ")[2] in [head.path for head in heads]:
            reader.refuse()
        heads.append(Head(line[3:]))
        reader.take(line)
    return heads


def item_in(head, digits):
    """The item of these digits; None where they are those of no item."""
    kind, number = digits[:2], int(digits[2:] or "0", 2)
    if kind == "10" and number < 1 << head.width:
        return "element", number
    return ("end", number) if kind == "01" and number < head.dims else None


def read_table(reader, head):
    around = front_of_table(head, "LAST")
    found = re.fullmatch(re.escape(around[0]).replace("LAST", NUMBER), reader.line()) or reader.refuse()
    reader.take(reader.line(), around[1])
    items = []
    while str(len(items)) != found.group(1):
        line = re.fullmatch(f'    {len(items)} => "([01]{{{head.digits + 2}}})",', reader.line()) or reader.refuse()
        items.append(item_in(head, line.group(1)) or reader.refuse())
        reader.take(reader.line())
    reader.take(entry(head, len(items), None), "  );")
    return items


def may_stand(head, kind, around):
    """Whether a statement of this kind may stand inside statements of these kinds. A process and those around may be eight lists deep."""
    if kind not in NEEDS and len(around) == 7:
        return False
    return {"lanes": "lanes" not in around,
            "dims": "dims" not in around and head.dims > 0,
            "last": "lanes" in around and "dims" in around,
            "end": "dims" in around}.get(kind, "lanes" in around)


def read_statements(reader, head, around=()):
    statements, indent = [], "      " + "  " * len(around)
    while True:
        kinds = [kind for kind in (*LOOPS, *TESTS, *NEEDS) if reader.line() == indent + first_line(head, kind)]
        if not kinds or not may_stand(head, kinds[0], around):
            return statements
        kind = kinds[0]
        reader.take(reader.line())
        if kind in NEEDS:
            reader.take(*(indent + line for line in rest_of_need(head)))
            statements.append((kind,))
        else:
            inside = read_statements(reader, head, (*around, kind)) or reader.refuse()
            reader.take(indent + last_line(kind))
            statements.append((kind, inside))


def read_process(reader, head):
    reader.take(*front_of_process(head))
    statements = read_statements(reader, head)
    reader.take(*BACK_OF_PROCESS)
    return statements


def read(text):
    """The monitor that a text spells."""
    reader = Reader(text)
    reader.take("-- tydi-watch 1")
    heads = read_heads(reader)
    reader.take(*front_of(heads))
    want = [read_table(reader, head) for head in heads]
    reader.take("begin")
    processes = [read_process(reader, head) for head in heads]
    reader.take("end architecture;")
    if reader.offset != len(text):
        reader.refuse()
    return Monitor(heads, want, processes)


def is_monitor(text):
    try:
        return bool(read(text))
    except NotForm:
        return False


# ---- what a monitor says

def needs(head, statements, payload, lane=None, dim=None):
    """The items that statements ask for in a row with this payload, one after another."""
    for kind, *inside in statements:
        if kind == "element":
            yield kind, payload.get("d", 0) >> (lane * head.width) & ((1 << head.width) - 1)
        elif kind == "end":
            yield kind, dim
        elif kind == "lanes":
            for each in range(head.lanes):
                yield from needs(head, inside[0], payload, each, dim)
        elif kind == "dims":
            for each in range(head.dims):
                yield from needs(head, inside[0], payload, lane, each)
        elif holds(head, kind, payload, lane, dim):
            yield from needs(head, inside[0], payload, lane, dim)


def holds(head, kind, payload, lane, dim):
    if kind == "last":
        return payload.get("l", 0) >> (lane * head.dims + dim) & 1 == 1
    return payload.get("s", 0) <= lane <= payload.get("e", head.lanes - 1) and payload.get("b", -1) >> lane & 1 == 1


def asked(head, statements, rows):
    """All items that a process asks for in the transfers done, each with its cycle."""
    for cycle, row in enumerate(rows):
        _, is_done, payload = signals_of(row)
        for item in needs(head, statements, payload) if is_done else ():
            yield item, cycle


def said_of(head, want, statements, rows):
    """The line of a stream: the process stops at the first item that is not the expected one."""
    place = 0
    for item, cycle in asked(head, statements, rows):
        if want[place:place + 1] != [item]:
            return f"stream {head.path} report {cycle}\n"
        place += 1
    return f"stream {head.path} seen {place} of {len(want)}\n"


def first_other(head, want, rows):
    """The line of a stream by its items alone: the first cycle by whose end those done are no front of the expected ones."""
    done = []
    for cycle, row in enumerate(rows):
        _, is_done, payload = signals_of(row)
        done += items_of_row(head, payload) if is_done else ()
        if done != want[:len(done)]:
            return f"stream {head.path} report {cycle}\n"
    return f"stream {head.path} seen {len(done)} of {len(want)}\n"


def watched(text, trace):
    """The answer of `watch` to the text of a monitor and a trace with its heads, but for the word of the monitor."""
    try:
        monitor = read(text)
    except NotForm as fault:
        return 1, "", f"tydi: NotForm {fault.args[0]}\n"
    heads, others = ([head.line for head in heads] for heads in (monitor.heads, heads_of(trace)))
    if heads != others:
        number = next((number for number, pair in enumerate(zip(heads, others)) if pair[0] != pair[1]), min(len(heads), len(others)))
        return 1, "", f"tydi: OtherHeader {number}\n"
    return answer_of([said_of(*stream) for stream in zip(*monitor, rows_of_each(trace))])


def answer_of(lines):
    return (6 if any(" report " in line for line in lines) else 0), "".join(lines), ""


def expected(monitor, trace):
    """The answer to the monitor of a value, by the items alone."""
    return answer_of([first_other(*stream) for stream in zip(monitor.heads, monitor.want, rows_of_each(trace))])
