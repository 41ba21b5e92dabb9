"""Sweeps of the program. All small values of the ports of `values` are driven and decoded as the same text. The traces of the ports of
`changes` have each bit of each row changed, and what `check` and `decode` say of each is compared with the definitions; so is what `compare`
says of each beside the value that was driven, and what `watch` says of each under the monitor of that value, which `expect` writes. All items up to
four on streams of up to three lanes and two dimensions, at each level and by six wishes, are driven and decoded. bench.vhd is run by the texts
of `runs`, with the edits of `edits`, and cut at each byte. Monitors with all processes of up to three statements run over a trace; and the text of one
is cut at each byte, each of its bytes is changed, and each line is left out, doubled and exchanged with the next.
  tests/sweeps/run PROGRAM
The answers that are expected come from meanings.py, rules.py and monitors.py, which have none of the program's code.
Each part says how many it ran, and the counts are compared. One answer of each part is spoilt, and is seen to fail."""
import itertools, os, re, subprocess, sys, tempfile
from concurrent.futures import ThreadPoolExecutor

import meanings
import monitors
import rules

HERE = os.path.dirname(os.path.realpath(__file__))
PROGRAM = os.path.realpath(sys.argv[1])
ROOM = tempfile.TemporaryDirectory()
failures = []


def fail(line):
    """Notes a failure, and shows the first ones."""
    failures.append(line)
    if len(failures) <= 10:
        print("FAIL", line)


def expect(name, wanted, got):
    if wanted != got:
        fail(f"{name}\n  wanted: {wanted!r}\n  got:    {got!r}")


def store(text):
    """A new file with this text."""
    handle, path = tempfile.mkstemp(dir=ROOM.name)
    with os.fdopen(handle, "wb") as file:
        file.write(text.encode())
    return path


def answer(*words):
    """The answer of the program to these words: its status, and both of its texts."""
    said = subprocess.run([PROGRAM, *words], stdin=subprocess.DEVNULL, capture_output=True)
    return said.returncode, said.stdout.decode(), said.stderr.decode()


def answer_of_text(command, project, text):
    """The answer of a command to a trace."""
    trace = store(text)
    words = [project, "a::s.p", trace] if project else [trace]
    said = answer(command, *words)
    os.unlink(trace)
    return said


def drive(project, value, plan):
    """The answer of `drive` to a value."""
    file = store(value)
    said = answer("drive", project, "a::s.p", file, plan)
    os.unlink(file)
    return said


def project_of(port):
    return store(f"namespace a {{ streamlet s = (p: in {port}); }}")


def blocks_of(name, first):
    """The blocks of a file, each of which begins with a line of this word, and has lists of lines by their first word."""
    block = {}
    for line in open(os.path.join(HERE, name)):
        word, _, rest = line.rstrip("\n").partition(" ")
        if word == first and block:
            yield block
            block = {}
        if word not in ("", "--"):
            block.setdefault(word, []).append(rest)
    yield block


# ---- small values

PLAN = "tydi-plan 1\ncycles 12\n"


def expect_text(project, value):
    """The answer of `expect` to a value."""
    file = store(value)
    said = answer("expect", project, "a::s.p", file)
    os.unlink(file)
    return said


def comes_back(project, plan, value):
    """Whether the trace that drives a port with a value is decoded as this value."""
    status, trace, _ = drive(project, value, plan)
    return status == 0 and answer_of_text("decode", project, trace) == (0, value, "")


def is_expected(project, plan, value):
    """Whether the monitor of a value is written as it should be, by the trace that drives the port with the value."""
    status, trace, _ = drive(project, value, plan)
    return status == 0 and expect_text(project, value) == (0, monitors.text_of(monitors.monitor_of(trace)), "")


def sweep_values(pool):
    plan, count = store(PLAN), 0
    for block in blocks_of("values", "port"):
        port = block["port"][0]
        project = project_of(port)
        values = meanings.all_spelled(block["rule"])
        expect(f"the values of {port}", int(block["values"][0]), len(values))
        count += len(values)
        backs = pool.map(lambda value: comes_back(project, plan, value) and is_expected(project, plan, value), values)
        for value, is_back in zip(values, backs):
            if not is_back:
                fail(f"{port} {value}")
    expect("a spoilt value comes back", False, comes_back(project, plan, values[-1].replace("1", "2")))
    expect("a spoilt value is expected", False, is_expected(project, plan, values[-1].replace("1", "2")))
    return count


# ---- changed traces

def verdict(port, known, project, text):
    """The kind of the outcome of a trace by the definitions, and whether `check` and `decode` say what they do."""
    kind, wanted = rules.outcome(port, known, text)
    is_right = answer_of_text("check", None, text) == rules.checked(port, text)
    return kind, is_right and answer_of_text("decode", project, text) == wanted


def changed_traces(port, known, step, project, plan):
    """The traces that drive a port with some of the known values, each with its value, and each of their changes."""
    driven = []
    for value in list(known)[::step]:
        status, trace, _ = drive(project, value, plan)
        if status == 0:
            driven.append((value, trace, list(meanings.changes(port, trace))))
    return driven


def is_compared(port, project, value, trace, text):
    """Whether `compare` says of a trace beside a value what the definitions say, where this trace was driven with the value."""
    files = store(value), store(text)
    said = answer("compare", project, "a::s.p", *files)
    for file in files:
        os.unlink(file)
    return said == meanings.compared(port, trace, text)


def watch(monitor, trace):
    """The answer of `watch` to a monitor and a trace, without the names of the files."""
    files = store(monitor), store(trace)
    status, out, err = answer("watch", *files)
    for file in files:
        err = err.replace(f" {file}", "")
        os.unlink(file)
    return status, out, err


def is_watched(trace, text):
    """Whether `watch` says of a trace, under the monitor that expects what another carries, what its items alone and each statement of the monitor say."""
    monitor = monitors.monitor_of(trace)
    said = watch(monitors.text_of(monitor), text)
    return said == monitors.expected(monitor, text) == monitors.watched(monitors.text_of(monitor), text)


def sweep_comparisons(pool, port, project, driven):
    """Compares each driven trace and each of its changes with the value, and has the monitor of the value watch it."""
    cases = [(value, trace, text) for value, trace, changed in driven for text in [trace, *changed]]
    for (value, _, text), is_right in zip(cases, pool.map(lambda case: is_compared(port, project, *case) and is_watched(*case[1:]), cases)):
        if not is_right:
            fail(f"{value}\n{text}")
    value, trace, changed = driven[-1]
    spoilt = next(text for text in changed if meanings.compared(port, trace, text)[0])
    expect("a spoilt trace is the same", False, is_compared(port, project, value, spoilt, spoilt))
    return len(cases)


def sweep_changes(pool):
    count, comparisons = 0, 0
    for block in blocks_of("changes", "port"):
        spelled = block["port"][0]
        port, project = meanings.Port(spelled), project_of(spelled)
        expect(f"the streams of {spelled}", port.heads(), meanings.heads_in(answer("split", project, "a::s.p")[1]))
        known = {text: port.series_of_value(text) for text in meanings.all_spelled(block["rule"])}
        plan = store("\n".join(block["plan"]) + "\n")
        driven = changed_traces(port, known, int(block["step"][0]), project, plan)
        texts = [text for _, _, changed in driven for text in changed]
        kinds = dict.fromkeys(("values", "offences", "tags", "unfinished", "disagree"), 0)
        for text, (kind, is_right) in zip(texts, pool.map(lambda text: verdict(port, known, project, text), texts)):
            kinds[kind] = kinds.get(kind, 0) + 1
            if not is_right:
                fail(f"{spelled}\n{text}")
            elif kind == "values":
                sample = port, {value + " ": series for value, series in known.items()}, project, text
            elif kind == "offences":
                offence = port, text
        count += len(texts)
        comparisons += sweep_comparisons(pool, port, project, driven)
        told = f"known {len(known)} driven {len(driven)} " + " ".join(f"{kind} {number}" for kind, number in kinds.items())
        expect(f"the outcomes of {spelled}", block["outcomes"][0], told)
    expect("a spoilt value is right", ("values", False), verdict(*sample))
    port, text = offence
    unjudged = rules.first_refused(port, meanings.rows_of(port, text), (11,))
    expect("an offence is none", False, answer_of_text("check", None, text)[1].startswith(unjudged or "legal"))
    return count, comparisons


# ---- planned items

MASKS = (7, 1, 2, 0, 5, 7)
READY = "".join("0" if cycle % 3 == 1 else "1" for cycle in range(24))


def stream_of(lanes, dims, level):
    return f"Stream(data: Bits(4), throughput: {lanes}, dimensionality: {dims}, complexity: {level}, synchronicity: Desync)"


def plan_of(paths, lanes, number):
    """The plan of two wishes of this number for each stream."""
    mask = min(MASKS[number], (1 << lanes) - 1)
    wish = f"{mask:x}" + ("+late" if number % 2 else "") + ("+laned" if number >= 3 else "")
    block = f"gaps 1 2 0 1\nready {READY}\nwishes {wish} {wish}\n"
    return store("tydi-plan 1\ncycles 24\n" + "".join(f"stream {path}\n{block}" for path in paths))


def items_of(base):
    """All items up to four: 0 is none, 1 an element, and 2 and more the end of a sequence."""
    for digits in itertools.product(range(base), repeat=4):
        yield [("element", 10 + place) if digit == 1 else ("end", digit - 2)
               for place, digit in enumerate(digits) if digit]


def run_levels(lanes, dims, levels, items, number):
    """Whether a port with a stream at each of these levels is driven with the items, and decoded as them."""
    fields = ", ".join(f"l{level}: {stream_of(lanes, dims, level)}" for level in levels)
    project = project_of(f"Stream(data: Group({fields}), keep: true)")
    plan = plan_of([f"l{level}" for level in levels], lanes, number)
    text = meanings.text_of_items(dims, items)
    value = "root - = ;\n" + "".join(f"root l{level} = {text};\n" for level in levels)
    is_back = comes_back(project, plan, value)
    os.unlink(project), os.unlink(plan)
    return is_back


def is_refused(lanes, level, items, number):
    """Whether a stream without dimensions refuses the items, since its lanes do not divide them."""
    project, plan = project_of(stream_of(lanes, 0, level)), plan_of(["-"], lanes, number)
    said = drive(project, f"root - = {meanings.text_of_items(0, items)};\n", plan)
    os.unlink(project), os.unlink(plan)
    return said == (1, "", f"tydi: CountNotMultiple - {len(items)} {lanes}\n")


def sweep_items(pool):
    runs, refusals = [], []
    for lanes, dims in itertools.product((1, 2, 3), (0, 1, 2)):
        for items in items_of(dims + 2):
            if not meanings.are_whole(dims, items):
                continue
            lowest = 5 if dims == 0 and len(items) % lanes else 1
            runs += [(lanes, dims, range(lowest, 9), items, number) for number in range(6)]
            refusals += [(lanes, level, items, number) for number in range(6) for level in range(1, lowest)]
    for case, is_right in zip(runs, pool.map(lambda case: run_levels(*case), runs)):
        if not is_right:
            fail(f"the run of {case}")
    for case, is_right in zip(refusals, pool.map(lambda case: is_refused(*case), refusals)):
        if not is_right:
            fail(f"the refusal of {case}")
    expect("two elements are refused by two lanes", False, is_refused(2, 1, [("element", 1)] * 2, 0))
    return sum(len(case[2]) for case in runs), len(refusals)


# ---- testbenches

NO_CYCLES = "tydi-run 1\ncycles 0\n"


def unescaped(text):
    return text.encode().decode("unicode_escape")


def simulated(bench, run):
    """The answer of `sim` to a testbench and a run: the trace, or the error without the name of its file."""
    files = store(bench), store(run)
    status, out, err = answer("sim", *files)
    for file in files:
        err = err.replace(f" {file}", "")
        os.unlink(file)
    return out if status == 0 else err.removeprefix("tydi: ").rstrip("\n")


def cases_of_benches(bench):
    """Each testbench and run, with what is told of them."""
    header = simulated(bench, NO_CYCLES)
    for block in blocks_of("edits", "part"):
        part, other, told = (unescaped(block[word][0]) for word in ("part", "other", "told"))
        yield bench.replace(part, other, 1) if part else bench, NO_CYCLES, header if told == "same" else told
    for block in blocks_of("runs", "run"):
        run, told = unescaped(block["run"][0]), unescaped(block["told"][0])
        place = re.fullmatch(r"(\w+ (\d+):(\d+)) (\d+)", told)
        if place:
            lines, offset = run.split("\n")[:int(place.group(2)) - 1], int(place.group(4))
            expect(f"the offset of {told}", offset, sum(len(line) + 1 for line in lines) + int(place.group(3)) - 1)
        yield bench, run, place.group(1) if place else told
    for count in range(len(bench)):
        yield bench[:count], NO_CYCLES, f"NotForm {bench.rfind(chr(10), 0, count) + 1}"


def sweep_benches(pool):
    bench = open(os.path.join(HERE, "bench.vhd")).read()
    cases = list(cases_of_benches(bench))
    for (text, run, told), said in zip(cases, pool.map(lambda case: simulated(*case[:2]), cases)):
        expect(f"{run}\n{text}", told, said)
    expect("a spoilt run is right", False, simulated(bench, NO_CYCLES) == cases[-1][2])
    return len(cases)


# ---- monitors

WATCHED = """tydi-trace 1
cycles 4
stream a lanes 2 dims 2 level 8 element 3 user 0 forward
stream b.c lanes 1 dims 0 level 1 element 6 user 0 reverse
1 1 d=25 l=0 s=0 e=1 b=3
1 0 d=01
1 0 d=06 l=5 s=0 e=1 b=2
1 1 d=01
1 1 d=06 l=5 s=0 e=1 b=2
1 1 d=2a
1 1 d=00 l=8 s=0 e=1 b=0
0 1 -
"""


def statements_of(count):
    """All lists of so many statements, those inside others among them."""
    if count == 0:
        yield []
    for inner in range(count):
        for first, rest in itertools.product(statements_of(inner), statements_of(count - 1 - inner)):
            kinds = monitors.LOOPS + monitors.TESTS
            yield from ([(kind, first), *rest] for kind in kinds)
            yield from ([(kind,), *rest] for kind in (monitors.NEEDS if inner == 0 else ()))


def processes():
    """All processes of up to three statements, alone and in a loop in each order, and tests that are nested deeper and deeper."""
    for statements in itertools.chain(*map(statements_of, range(4))):
        yield statements
        yield [("lanes", [("dims", statements)])]
        yield [("dims", [("lanes", statements)])]
    statements = [("element",)]
    for _ in range(8):
        yield [("lanes", statements)]
        statements = [("active", statements)]


def changed_texts(text):
    """A text cut at each byte, with each byte left out or changed, and with each line left out, doubled or exchanged with the next."""
    for place, byte in enumerate(text):
        rest = text[place + 1:]
        yield from (text[:place], text[:place] + rest, text[:place] + {"0": "1", "1": "0", "x": "y"}.get(byte, "x") + rest)
    lines = text.splitlines(True)
    for number, line in enumerate(lines):
        before, behind = lines[:number], lines[number + 1:]
        yield from ("".join(before + other) for other in (behind, [line, line, *behind], [*behind[:1], line, *behind[1:]]))
    yield from (text + more for more in ("\n", "x", lines[-1]))


def wants_of(head, statements):
    """The items that a process asks for in the trace, and these without the last, the first and the middle one."""
    items = [item for item, _ in monitors.asked(head, statements, monitors.rows_of_each(WATCHED)[0])]
    middle = len(items) // 2
    return items, items[:-1], items[1:], items[:middle] + items[middle + 1:]


def texts_of_monitors():
    monitor = monitors.monitor_of(WATCHED)
    for statements in processes():
        text = monitors.text_of(monitor._replace(processes=[statements, monitor.processes[1]]))
        yield text
        if monitors.is_monitor(text):
            for want in wants_of(monitor.heads[0], statements):
                yield monitors.text_of(monitors.Monitor(monitor.heads, [want, monitor.want[1]], [statements, monitor.processes[1]]))
    yield from changed_texts(monitors.text_of(monitor))


def sweep_monitors(pool):
    texts = list(texts_of_monitors())
    for text, said in zip(texts, pool.map(lambda text: watch(text, WATCHED), texts)):
        expect(text, monitors.watched(text, WATCHED), said)
    accepted = sum(monitors.watched(text, WATCHED)[0] != 1 for text in texts)
    expect("a spoilt monitor is one", False, watch(texts[-1], WATCHED)[0] == 0)
    return len(texts), accepted


def main():
    with ThreadPoolExecutor(os.cpu_count()) as pool:
        values = sweep_values(pool)
        expect("how many values there are", 2242, values)
        changed, compared = sweep_changes(pool)
        expect("how many changed traces there are", (5042, 5347), (changed, compared))
        runs, refused = sweep_items(pool)
        expect("how many runs there are", (14952, 456), (runs, refused))
        benches = sweep_benches(pool)
        expect("how many testbenches there are", 2110, benches)
        texts, accepted = sweep_monitors(pool)
        expect("how many monitors there are", (10919, 610), (texts, accepted))
    print(f"sweeps: {values} values, {changed} changed traces, {compared} comparisons, {runs} runs of items, {refused} refused, {benches} testbenches, "
          f"{texts} texts of monitors, {len(failures)} failed")
    return 1 if failures else 0


if __name__ == "__main__":
    sys.exit(main())
