"""The meaning of the rules: which ones the rows of a trace break, how its streams end, and what `check` and `decode` say of it. It follows
docs/RULES.md and docs/FORMATS.md, and has none of the program's code."""
from collections import namedtuple

from meanings import disagreement, items_of_row, rows_of, signals_of, text_of_row

NAMES = ("Hold", "Index", "LaneLast", "Strobe", "Start", "End", "Empty", "InnerPause", "OuterPause", "Nest", "Tag")

# A row that is judged: its stream, whether it has valid and ready and its payload's numbers, the words of the payload, the words that
# were offered in the cycle before and not taken (None where nothing was), and the last item done before (None where there is none).
Seen = namedtuple("Seen", "node level is_valid payload words offered tail")


# ---- one row

def closes_empty(dim, before):
    """Whether the end of a sequence closes an empty one, where this item is right before it."""
    return before is None or before[0] == "end" and before[1] >= dim


def is_nested(dim, before):
    """Whether the end of a sequence of this dimension may stand right behind this item: only behind the end of a sequence in it, or of one that is as
    great, or where nothing is open."""
    return dim == 0 or before is None or before[0] == "end" and before[1] >= dim - 1


def indices(node, payload):
    """The first and the last lane that is in use."""
    return payload.get("s", 0), payload.get("e", node.lanes - 1)


def strobe(node, payload):
    """For each lane, whether it has a strobe."""
    return [payload.get("b", -1) >> lane & 1 for lane in range(node.lanes)]


def breaks_empty(node, payload, tail):
    """Whether a transfer has no element, and is not the end of an empty sequence."""
    items = list(items_of_row(node, payload))
    if any(kind == "element" for kind, _ in items):
        return False
    return not items or not closes_empty(items[0][1], tail)


def breaks_nest(node, payload, tail):
    """Whether the end of a sequence stands where one inside it is open."""
    items = list(items_of_row(node, payload))
    return any(kind == "end" and not is_nested(dim, before) for before, (kind, dim) in zip([tail, *items], items))


def rules_of_payload(seen):
    """The rules that a row with valid breaks, but for Hold."""
    node, payload = seen.node, seen.payload
    (first, last), strobes, lasts = indices(node, payload), strobe(node, payload), payload.get("l", 0)
    broken = {
        2: not first <= last < node.lanes,
        3: seen.level <= 7 and lasts % (1 << (node.lanes - 1) * node.dims) != 0,
        4: seen.level <= 6 and len(set(strobes)) > 1,
        5: seen.level <= 5 and first != 0,
        6: seen.level <= 4 and last != node.lanes - 1 and lasts == 0,
        7: seen.level <= 3 and breaks_empty(node, payload, seen.tail),
        10: breaks_nest(node, payload, seen.tail),
        11: not text_of_row(node, payload)[1],
    }
    return [rule for rule, is_broken in broken.items() if is_broken]


def rules_of_pause(seen):
    """The rules that a row without valid breaks, but for Hold."""
    node, tail = seen.node, seen.tail
    is_inside = node.dims > 0 and tail is not None and tail[0] == "element"
    is_open = node.dims > 0 and tail is not None and tail != ("end", node.dims - 1)
    return [rule for rule, is_broken in ((8, seen.level <= 2 and is_inside), (9, seen.level <= 1 and is_open)) if is_broken]


def rules_broken(seen):
    """The rules that a row breaks, the least first."""
    hold = [1] if seen.offered is not None and (not seen.is_valid or seen.words != seen.offered) else []
    return hold + (rules_of_payload(seen) if seen.is_valid else rules_of_pause(seen))


# ---- the rows of a stream

def judged(node, rows):
    """For each row of a stream the rules that it breaks, and how the stream ends: None where it ends whole."""
    broken, offered, tail = [], None, None
    for row in rows:
        is_valid, is_done, payload = signals_of(row)
        words = row.split(" ")[2:]
        broken.append(rules_broken(Seen(node, int(node.level.split(".")[0]), is_valid, payload, words, offered, tail)))
        offered = words if is_valid and not is_done else None
        if is_done:
            tail = ([tail] + list(items_of_row(node, payload)))[-1]
    return broken, ending(node, offered, tail)


def ending(node, offered, tail):
    """How a stream does not end whole: with an offer that is not taken, or with a packet that is open."""
    if offered is not None:
        return "pending"
    if node.dims == 0 or tail is None or tail == ("end", node.dims - 1):
        return None
    return f"open {0 if tail[0] == 'element' else tail[1] + 1}"


# ---- the answers

def first_refused(port, rows, rules):
    """The line that tells the first violation of these rules, or else the first stream that does not end whole; nothing where there is neither."""
    count = len(port.streams)
    streams = [judged(node, rows[stream::count]) for stream, node in enumerate(port.streams)]
    for number in range(len(rows)):
        cycle, stream = divmod(number, count)
        for rule in streams[stream][0][cycle]:
            if rule in rules:
                return f"offence cycle {cycle} stream {port.streams[stream].path} rule {rule} {NAMES[rule - 1]}\n"
    for node, (_, end) in zip(port.streams, streams):
        if end:
            return f"unfinished stream {node.path} {end}\n"
    return ""


def counted(node, rows):
    """The line of a stream's transfers done and packets."""
    done = [payload for _, is_done, payload in map(signals_of, rows) if is_done]
    ends = ("end", node.dims - 1) if node.dims else None
    packets = [item for payload in done for item in items_of_row(node, payload) if item == ends or ends is None]
    return f"stream {node.path} transfers {len(done)} packets {len(packets)}\n"


def checked(port, text):
    """The answer of `check` to a trace."""
    rows, count = rows_of(port, text), len(port.streams)
    refused = first_refused(port, rows, range(1, 11))
    if refused:
        return 6, refused, ""
    return 0, "legal\n" + "".join(counted(node, rows[stream::count]) for stream, node in enumerate(port.streams)), ""


def outcome(port, known, text):
    """The kind of a trace's outcome, and the answer of `decode`: the first violation of rules 1 to 11; else the first stream that does not end
    whole; else the value whose series are those of the transfers done, or the place up to which some value goes along with them."""
    rows = rows_of(port, text)
    refused = first_refused(port, rows, range(1, 12))
    if refused:
        kind = "unfinished" if refused.startswith("unfinished") else "tags" if refused.endswith(" rule 11 Tag\n") else "offences"
        return kind, (6, refused, "")
    series = port.shown(rows)
    for value, carried in known.items():
        if carried == series:
            return "values", (0, value + port.user_lines(rows), "")
    return "disagree", (6, disagreement(port, known, series), "")
