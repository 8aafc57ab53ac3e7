#!/bin/bash
# The programs `prepay`, `summary` and `page` in rough hands: broken texts, wrong arguments, and inputs and outputs that fail; and the pages of
# texts. It needs the programs as built, and python3.
#   bash tools/programs.sh           tries each case: standard output, standard error and status (a line for each that isn't as expected)
#   bash tools/programs.sh --stack   measures the least stack with which each ran every time
# Status 0: all as expected; 1: something is not; 2: something is missing, which it names.
cd "$(dirname "$0")/.." || exit 2
command -v python3 > /dev/null || { echo "programs.sh: python3 is missing"; exit 2; }
for program in prepay summary page; do
    if [[ ! -x crates/$program/out/$program ]]; then
        echo "programs.sh: crates/$program/out/$program is missing: (cd crates/$program && rt run < /dev/null) builds it"
        exit 2
    fi
done
exec python3 - "$@" << 'PYTHON'
import fcntl, os, resource, signal, subprocess, sys, threading, time

PROGRAMS = {name: os.path.abspath(f"crates/{name}/out/{name}") for name in ("prepay", "summary", "page")}
# what a program is given where a case gives it nothing else: `page` the opening month
ARGUMENTS = {"prepay": (), "summary": (), "page": ("0",)}


def stored(path):
    with open(path, "rb") as file:
        return file.read()


WORKED = stored("crates/prepay/stdin")
WORKED_LINES = stored("crates/prepay/stdout").splitlines(keepends=True)
SUMMARY_TEXT = stored("crates/summary/stdin")
SUMMARY_LINES = stored("crates/summary/stdout")
# its event 318 breaks the form, as its make_text.py says
SUMMARY_SAID = b"line 1156: event 318 breaks the form\n"
PAGE_TEXT = stored("crates/page/stdin")
PAGE_LINES = stored("crates/page/stdout")
PAGE_SAID = b"line 158: event 44 breaks the form\n"

# a text of exactly 65,536 bytes: warnings of 14 bytes on day 0, then of 15 bytes on day 10; the first 4,096 are accepted
TERMS = b"".join(WORKED.splitlines(keepends=True)[:5])
LEFT = 65536 - len(TERMS)
LONGER = LEFT % 14
SHORTER = (LEFT - 15 * LONGER) // 14
LONGEST = TERMS + b"day=0\ndo=warn\n" * SHORTER + b"day=10\ndo=warn\n" * LONGER
assert len(LONGEST) == 65536
LONGEST_LINES = b"".join(b"n=%d code=%d value=0 balance=0 plan=0\n" % (n, 0 if n <= 4096 else 4) for n in range(1, SHORTER + LONGER + 1))
LONGEST_LINES += b"settled=0 estimates=0\n"


def limited(stack):
    return None if stack is None else lambda: resource.setrlimit(resource.RLIMIT_STACK, (stack, stack))


def run(name, text, *arguments, stack=None):
    command = [PROGRAMS[name], *(arguments or ARGUMENTS[name])]
    done = subprocess.run(command, input=text, capture_output=True, preexec_fn=limited(stack), timeout=60)
    return done.stdout, done.stderr, done.returncode


# ---- the least stack

def least_stack(name, text):
    sound = run(name, text)
    holds = None
    for kib in range(320, 15, -4):
        if any(run(name, text, stack=kib * 1024) != sound for _ in range(60)):
            return holds
        holds = kib
    return holds


if sys.argv[1:] == ["--stack"]:
    size = sum(len(key) + len(value) + 2 for key, value in os.environb.items())
    for name in PROGRAMS:
        for title, text in ("the worked example", WORKED), ("65,536 bytes", LONGEST), ("a text too long", LONGEST + b"\n"):
            print(f"{name}, {title}: {least_stack(name, text)} KiB, 60 runs of 60 (environment of {size} bytes)")
    sys.exit(0)

# ---- what is expected

cases = failures = 0


def expect(title, got, wanted):
    global cases, failures
    cases += 1
    for part, is_, was in zip(("standard output", "standard error", "status"), got, wanted):
        if is_ != was:
            failures += 1
            print(f"{title}: {part} is {is_!r:.300}, expected {was!r:.300}")


def failed(code, kind):
    return f'Error: Os {{ code: {code}, kind: {kind}, message: "{os.strerror(code)}" }}\n'.encode()


CLOSED = failed(9, "Uncategorized")
FULL = failed(28, "StorageFull")
NO_READER = failed(32, "BrokenPipe")
NOT_NOW = failed(11, "WouldBlock")
DIRECTORY = failed(21, "IsADirectory")
REFUSED_TERMS = b"n=0 code=%d value=0 balance=0 plan=0\n"

# ---- texts that break the form

lines = WORKED.splitlines(keepends=True)


def with_line(number, line):
    return b"".join(lines[:number - 1] + [line] + lines[number:])


def broken_at(event, line, balance, settled, estimates=0):
    """what `prepay` prints: the lines before the event, its line with code 15, the last line; and the message"""
    out = b"".join(WORKED_LINES[:event - 1]) + b"n=%d code=15 value=0 balance=%d plan=0\n" % (event, balance)
    return out + b"settled=%d estimates=%d\n" % (settled, estimates), b"line %d: event %d breaks the form\n" % (line, event)


IN_TERMS = REFUSED_TERMS % 15, b"line 1: the terms break the form\n"
TOO_LONG = REFUSED_TERMS % 15, b"the text is longer than 65536 bytes\n"

# usage day 4 costs the opening price, also read after the price moved on day 5, and usage day 5 the new one
PRICED = TERMS + b"""day=0
do=pay
amount=6000
day=5
do=price
price=2500
day=6
do=estimate
usage=4
wh=30000
day=6
do=read
usage=5
wh=30000
day=6
do=price
price=0
day=6
do=price
price=100000
day=7
do=read
usage=4
wh=32000
"""
PRICED_LINES = b"""n=1 code=0 value=0 balance=6000 plan=0
n=2 code=0 value=0 balance=6000 plan=0
n=3 code=0 value=375 balance=5625 plan=0
n=4 code=0 value=750 balance=4875 plan=0
n=5 code=3 value=0 balance=4875 plan=0
n=6 code=3 value=0 balance=4875 plan=0
n=7 code=0 value=400 balance=4850 plan=0
settled=4850 estimates=0
"""

# a price twice on day 0, once on days 1 to 17, of which the last is 17, and again on day 16; then a usage day's 100,000 Wh cost its price
MOVES = [(0, 1), (0, 99999)] + [(day, 100 * day) for day in range(1, 18)] + [(16, 5000)]
SIXTEEN = TERMS + b"".join(b"day=%d\ndo=price\nprice=%d\n" % move for move in MOVES)
SIXTEEN += b"".join(b"day=19\ndo=read\nusage=%d\nwh=100000\n" % usage for usage in (0, 15, 16, 18))
SIXTEEN_LINES = b"".join(b"n=%d code=%d value=0 balance=0 plan=0\n" % (n, 17 if n == 19 else 0) for n in range(1, 21))
SIXTEEN_LINES += b"""n=21 code=0 value=99999 balance=-99999 plan=0
n=22 code=0 value=1500 balance=-101499 plan=0
n=23 code=0 value=5000 balance=-106499 plan=0
n=24 code=0 value=5000 balance=-111499 plan=0
settled=-111499 estimates=0
"""


def metered(count, paid, wh, cost, average):
    """what `summary` prints where payments and reads are in month 0 alone: days 0 to 399 from 2024-01-01 end in month 13"""
    line = b"m=%d code=%d kept_count=%d kept_sum=%d reversed_count=0 reversed_sum=0 metered_wh=%d metered_cost=%d estimated_wh=0 estimated_cost=0"
    line += b" kind1=0 kind2=0 kind3=0 kind4=0 kind5=0 average=%d missing=%d\n"
    later = b"".join(line % (month, 0, 0, 0, 0, 0, 0, 1) for month in range(1, 14))
    return line % (0, 0, count, paid, wh, cost, average, 0) + later + line % (14, 3, 0, 0, 0, 0, 0, 0)


def paper(month, paid, usage, kinds, average):
    """the page: of payments date and figure, of usage Wh and figure, the figures of kinds 3 to 5"""
    page_lines = [(f"Month {month}", ""), *((f"Paid {date}", figure) for date, figure in paid), (f"Usage {usage[0]} Wh", usage[1])]
    page_lines += [*((f"Kind {kind}", figure) for kind, figure in zip((3, 4, 5), kinds)), ("Average", average)]
    return "".join(f"{label:<58}{figure:>14}\n" for label, figure in page_lines).encode()


NONE = ("0.00",) * 3
NO_WH = (0, "0.00")
NO_MONTH = b"code=3 value=0\n"

# a text, what `prepay` prints and says of it, and the text of which `summary` prints the same months and `page` the same page
TEXTS = [
    ("sound", WORKED, (b"".join(WORKED_LINES), b""), WORKED),
    ("no bytes", b"", IN_TERMS, None),
    ("terms alone", TERMS, (b"settled=0 estimates=0\n", b""), TERMS),
    ("first line of the terms", with_line(1, b"open=2024-1-01\n"), IN_TERMS, None),
    ("last line of the terms", with_line(5, b"share=050\n"), IN_TERMS, None),
    ("terms cut off", TERMS[:-1], IN_TERMS, None),
    ("first line of the first event", with_line(6, b"day=00\n"), broken_at(1, 6, 0, 0), TERMS),
    ("last line of the first event", with_line(8, b"amount=\n"), broken_at(1, 6, 0, 0), TERMS),
    ("first line of an event", with_line(19, b"day=-3\n"), broken_at(5, 19, 5600, 5600), b"".join(lines[:18])),
    ("second line of an event", with_line(20, b"do=warm\n"), broken_at(5, 19, 5600, 5600), b"".join(lines[:18])),
    ("last line of an event", with_line(18, b"wh=32000 \n"), broken_at(4, 15, 5625, 6000, 375), b"".join(lines[:14])),
    ("a line left out", with_line(17, b""), broken_at(4, 15, 5625, 6000, 375), b"".join(lines[:14])),
    ("two breaks", with_line(18, b"\n")[:-1], broken_at(4, 15, 5625, 6000, 375), b"".join(lines[:14])),
    ("last line not ended", WORKED[:-1], broken_at(10, 32, 4900, 4900), b"".join(lines[:31])),
    ("a byte after the last event", WORKED + b"d", broken_at(11, 34, 4900, 4900), WORKED),
    ("a line feed after the last event", WORKED + b"\n", broken_at(11, 34, 4900, 4900), WORKED),
    ("half an event after the last event", WORKED + b"day=6\n", broken_at(11, 34, 4900, 4900), WORKED),
    ("zero bytes after the last event", WORKED + bytes(20), broken_at(11, 34, 4900, 4900), WORKED),
    ("a price under another key", PRICED.replace(b"\nprice=2500\n", b"\namount=2500\n"), broken_at(2, 9, 6000, 6000), b"".join(lines[:8])),
    ("65,536 bytes", LONGEST, (LONGEST_LINES, b""), TERMS + b"day=0\ndo=warn\n"),
    ("65,537 bytes", LONGEST + b"\n", TOO_LONG, None),
    ("too long by far", WORKED * 1000, TOO_LONG, None),
    ("refused terms", with_line(1, b"open=2023-02-29\n"), (REFUSED_TERMS % 1, b""), None),
    ("refused terms and a broken event", with_line(1, b"open=2023-02-29\n")[:-1], (REFUSED_TERMS % 1, b"line 32: event 10 breaks the form\n"), None),
]

for title, text, (out, message), sound in TEXTS:
    expect(f"prepay, {title}", run("prepay", text), (out, message, 0))
    for name in "summary", "page":
        printed = out if sound is None else run(name, sound)[0]
        expect(f"{name}, {title}", run(name, text), (printed, message, 0))
    expect(f"page, {title}, no month", run("page", text, "15"), (out if sound is None else NO_MONTH, message, 0))
expect("prepay, a price in mid-year", run("prepay", PRICED), (PRICED_LINES, b"", 0))
expect("summary, a price in mid-year", run("summary", PRICED), (metered(1, 6000, 62000, 1150, 1855), b"", 0))
expect("prepay, prices of sixteen later days", run("prepay", SIXTEEN), (SIXTEEN_LINES, b"", 0))
expect("summary, prices of sixteen later days", run("summary", SIXTEEN), (metered(0, 0, 400000, 111499, 27875), b"", 0))
expect("summary, its stored text", run("summary", SUMMARY_TEXT), (SUMMARY_LINES, SUMMARY_SAID, 0))

# ---- pages

PAGE = paper("2024-01", [("2024-01-01", "60.00"), ("2024-01-06", "40.00")], (32000, "4.00"), NONE, "159.38")
# 1 Wh costs nothing; its month is charged 99,999,999 cents of kind 1, then a cent more
DEAR = TERMS + b"day=1\ndo=read\nusage=0\nwh=1\n" + b"day=1\ndo=charge\nkind=1\namount=10000000\n" * 9
DEAR += b"day=1\ndo=charge\nkind=1\namount=9999999\n"
DEARER = DEAR + b"day=1\ndo=charge\nkind=1\namount=1\n"
# ten payments a day, and one more than the account takes
MOST = TERMS + b"".join(b"day=%d\ndo=pay\namount=%d\n" % (n // 10, 5 + 77777 * n) for n in range(129))
MOST_PAID = [(f"2024-01-{1 + n // 10:02}", "%d.%02d" % divmod(5 + 77777 * n, 100)) for n in range(128)]
LONGEST_PAGE = paper("2024-01", MOST_PAID, NO_WH, NONE, "")
assert len(LONGEST_PAGE) == 9782
REVERSED = b"day=20\ndo=reverse\nnumber=0\nday=20\ndo=reverse\nnumber=127\nday=20\ndo=reverse\nnumber=64\n"
MOST_LEFT = [MOST_PAID[n] for n in range(128) if n not in (0, 64, 127)]
NO_ENERGY = TERMS + b"day=1\ndo=read\nusage=0\nwh=0\nday=1\ndo=charge\nkind=2\namount=500\nday=1\ndo=charge\nkind=3\namount=40\n"
PAID_LAST = b"day=399\ndo=pay\namount=1\n"


def opened(date):
    return b"open=%s\n" % date + b"".join(lines[1:5])


# a text, the month, its page
PAGES = [
    ("the worked example", WORKED, "0", PAGE),
    ("a month without events", WORKED, "1", paper("2024-02", [], NO_WH, NONE, "")),
    ("a price in mid-year", PRICED, "0", paper("2024-01", [("2024-01-01", "60.00")], (62000, "11.50"), NONE, "18.55")),
    ("prices of sixteen later days", SIXTEEN, "0", paper("2024-01", [], (400000, "1114.99"), NONE, "278.75")),
    ("a month without energy", NO_ENERGY, "0", paper("2024-01", [], NO_WH, ("0.40", "0.00", "0.00"), "")),
    ("the widest average", DEAR, "0", paper("2024-01", [], (1, "0.00"), NONE, "99999999000.00")),
    ("a wider average", DEARER, "0", paper("2024-01", [], (1, "0.00"), NONE, "")),
    ("128 payments", MOST, "0", LONGEST_PAGE),
    ("125 payments and three reversed", MOST + REVERSED, "0", paper("2024-01", MOST_LEFT, NO_WH, NONE, "")),
    ("a year's last month", TERMS, "11", paper("2024-12", [], NO_WH, NONE, "")),
    ("the next year's first month", TERMS, "12", paper("2025-01", [], NO_WH, NONE, "")),
    ("month 14 with a day, over a leap day", opened(b"2024-01-27") + PAID_LAST, "14", paper("2025-03", [("2025-03-01", "0.01")], NO_WH, NONE, "")),
    ("month 14 without days, over a leap day", opened(b"2024-01-26") + PAID_LAST, "14", NO_MONTH),
    ("month 14 with a day", opened(b"2025-01-26") + PAID_LAST, "14", paper("2026-03", [("2026-03-01", "0.01")], NO_WH, NONE, "")),
    ("month 14 without days", opened(b"2025-01-25") + PAID_LAST, "14", NO_MONTH),
    ("month 15", WORKED, "15", NO_MONTH),
    ("the largest number", WORKED, "4294967295", NO_MONTH),
]
for title, text, month, wanted in PAGES:
    expect(f"page, {title}", run("page", text, month), (wanted, b"", 0))
expect("page, its stored text", run("page", PAGE_TEXT, "1"), (PAGE_LINES, PAGE_SAID, 0))
wanted = paper("2025-03", [("2025-03-01", "15.00")], (30040, "7.51"), NONE, "33.32")
expect("page, month 14 of summary's stored text", run("page", SUMMARY_TEXT, "14"), (wanted, SUMMARY_SAID, 0))

# ---- streams that fail

BROKEN = WORKED + b"\n"
AFTER = b"line 34: event 11 breaks the form\n"


def started(name, text, *, arguments=None, **streams):
    """runs on a text in a file, or on the standard input that `streams` has"""
    if text is not None:
        source = os.memfd_create("text")
        os.write(source, text)
        os.lseek(source, 0, os.SEEK_SET)
        streams["stdin"] = source
    streams = {"stdout": subprocess.PIPE, "stderr": subprocess.PIPE, **streams}
    command = [PROGRAMS[name], *(ARGUMENTS[name] if arguments is None else arguments)]
    process = subprocess.Popen(command, restore_signals=False, **streams)
    if text is not None:
        os.close(source)
    return process


def ended(process):
    out, err = process.communicate(timeout=60)
    return out or b"", err or b"", process.returncode


def closing(*numbers):
    def close():
        for number in numbers:
            os.close(number)
    return close


def sigpipe(action):
    return lambda: signal.signal(signal.SIGPIPE, action)


def pipe_in_hand(name, text, filled, flags, read_first, action=signal.SIG_DFL):
    """standard output is a pipe: so many bytes stand in it, `read_first` are read, then the reader is closed or reads slowly to the end"""
    reader, writer = os.pipe()
    fcntl.fcntl(writer, fcntl.F_SETPIPE_SZ, 4096)
    os.write(writer, bytes(filled))
    if flags:
        fcntl.fcntl(writer, fcntl.F_SETFL, fcntl.fcntl(writer, fcntl.F_GETFL) | flags)
    process = started(name, text, stdout=writer, preexec_fn=sigpipe(action))
    os.close(writer)
    got = b""
    if read_first is None:
        time.sleep(0.3)
        while part := os.read(reader, 512):
            got += part
            time.sleep(0.0002)
    else:
        while len(got) < read_first:
            got += os.read(reader, read_first - len(got))
        time.sleep(0.1)
    os.close(reader)
    _, err, status = ended(process)
    return got[filled:], err, status


for name in PROGRAMS:
    whole = run(name, WORKED)[0]
    last = broken_at(11, 34, 4900, 4900)[0] if name == "prepay" else whole
    for kind, text in ("sound", WORKED), ("broken", BROKEN):
        with open("/dev/full", "wb") as full:
            expect(f"{name}, {kind}, full device", ended(started(name, text, stdout=full)), (b"", FULL, 1))
        expect(f"{name}, {kind}, closed output", ended(started(name, text, preexec_fn=closing(1))), (b"", CLOSED, 1))
    with open("/dev/full", "wb") as full:
        expect(f"{name}, sound, full standard error", ended(started(name, WORKED, stderr=full)), (whole, b"", 0))
        expect(f"{name}, broken, full standard error", ended(started(name, BROKEN, stderr=full)), (last, b"", 1))
    expect(f"{name}, sound, closed standard error", ended(started(name, WORKED, preexec_fn=closing(2))), (whole, b"", 0))
    expect(f"{name}, broken, closed standard error", ended(started(name, BROKEN, preexec_fn=closing(2))), (last, b"", 1))

    expect(f"{name}, closed input", ended(started(name, None, preexec_fn=closing(0))), (b"", CLOSED, 1))
    folder = os.open("/", os.O_RDONLY)
    expect(f"{name}, a directory as input", ended(started(name, None, stdin=folder)), (b"", DIRECTORY, 1))
    os.close(folder)
    reader, writer = os.pipe()
    os.set_blocking(reader, False)
    expect(f"{name}, an input that has nothing yet", ended(started(name, None, stdin=reader)), (b"", NOT_NOW, 1))
    os.close(reader)
    os.close(writer)
    process = started(name, None, stdin=subprocess.PIPE)
    for place in range(0, len(BROKEN), 7):
        process.stdin.write(BROKEN[place:place + 7])
        process.stdin.flush()
        time.sleep(0.001)
    expect(f"{name}, broken, a slow input", ended(process), (last, AFTER, 0))

# Half way: `prepay` on the longest text and `page` on the fullest month print more than the pipe holds. What fits in it `summary` and `page` write
# whole or not at all, and wait where it is full. A program ignores SIGPIPE, however it is started.
for how, action in ("SIGPIPE ignored", signal.SIG_IGN), ("SIGPIPE as it is", signal.SIG_DFL):
    closed = pipe_in_hand("prepay", LONGEST, 0, 0, 6000, action)
    expect(f"prepay, output closed half way, {how}", closed, (LONGEST_LINES[:6000], NO_READER, 1))
    for name in "summary", "page":
        closed = pipe_in_hand(name, WORKED, 4096, 0, 0, action)
        expect(f"{name}, output closed half way, {how}", closed, (b"", NO_READER, 1))
    closed = pipe_in_hand("page", MOST, 0, 0, 1000, action)
    expect(f"page, output closed within the page, {how}", closed, (LONGEST_PAGE[:1000], NO_READER, 1))
expect("prepay, a slow output", pipe_in_hand("prepay", LONGEST, 0, 0, None), (LONGEST_LINES, b"", 0))
part, said, status = pipe_in_hand("prepay", LONGEST, 0, os.O_NONBLOCK, None)
expect("prepay, a slow non-blocking output", (part, said, status), (LONGEST_LINES[:len(part)], NOT_NOW, 1))
expect("prepay, a slow non-blocking output, some of the lines", (0 < len(part) < len(LONGEST_LINES),), (True,))
expect("summary, a slow output", pipe_in_hand("summary", SUMMARY_TEXT, 4096, 0, None), (SUMMARY_LINES, SUMMARY_SAID, 0))
expect("summary, a slow non-blocking output", pipe_in_hand("summary", SUMMARY_TEXT, 4096, os.O_NONBLOCK, None), (b"", NOT_NOW, 1))
expect("page, a slow output", pipe_in_hand("page", MOST, 4096, 0, None), (LONGEST_PAGE, b"", 0))
expect("page, a slow non-blocking output", pipe_in_hand("page", MOST, 4096, os.O_NONBLOCK, None), (b"", NOT_NOW, 1))

# ---- the argument of `page`

ASKED = b"page: expected one argument, the month, a number as in the event text\n"
WRONG = [(), ("",), ("0", "0"), ("0", ""), ("", "0"), ("0", "0", "0"), ("01",), ("00",), ("-1",), ("-0",), ("+1",), (" 1",), ("1 ",), ("1\n",),
         ("1.0",), ("0x1",), ("1e1",), ("one",), ("-h",), ("--",), ("--", "1"), ("\u0661",), (b"\xff",), (b"1\xff",), ("4294967296",),
         ("42949672950",), ("18446744073709551616",), ("9" * 100000,), ("0" * 100000,)]
for arguments in WRONG:
    said = repr(arguments)[:40]
    source = os.memfd_create("text")
    os.write(source, WORKED)
    os.lseek(source, 0, os.SEEK_SET)
    expect(f"page, {said}", ended(started("page", None, arguments=arguments, stdin=source)), (b"", ASKED, 2))
    expect(f"page, {said}, its input", (os.lseek(source, 0, os.SEEK_CUR),), (0,))
    os.close(source)
expect("page, no argument, closed input", ended(started("page", None, arguments=(), preexec_fn=closing(0))), (b"", ASKED, 2))
expect("page, no argument, closed output", ended(started("page", None, arguments=(), preexec_fn=closing(1))), (b"", ASKED, 2))
expect("page, no argument, closed standard error", ended(started("page", b"", arguments=(), preexec_fn=closing(2))), (b"", b"", 1))
with open("/dev/full", "wb") as full:
    expect("page, no argument, full standard error", ended(started("page", b"", arguments=(), stderr=full)), (b"", b"", 1))

print(f"{cases} cases, {failures} failures")
sys.exit(1 if failures else 0)
PYTHON
