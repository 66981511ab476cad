"""Sessions of the program, and the rules that the output of each must keep (docs/LANGUAGE.md, "What a session writes"
and "Statuses")."""
import os, re, subprocess, tomllib

TOP = os.path.dirname(os.path.dirname(os.path.abspath(__file__)))
PROLOG = os.environ.get("PROLOG", os.path.join(TOP, "prolog"))
ENGINES = {"both": ["plain", "wam"], "plain": ["plain"], "wam": ["wam"]}

LINE = re.compile(
    r"syntax error in clause [0-9]+|clause [0-9]+ (refused: .+|skipped)"
    r"|directive [0-9]+ (failed|refused: .+|stopped: budget)|answer (?P<answer>[0-9]+): .+"
    r"|(?P<end>end: (no more|budget|error .+|syntax error|halt (?P<halt>[0-9]+)"
    r"|(?P<limit>heap full|frames full|no memory)))")


def add_words(parser):
    """The words of each script: how many sessions run side by side, and with which engines."""
    parser.add_argument("-j", type=int, default=os.cpu_count(), metavar="JOBS")
    parser.add_argument("--engine", choices=list(ENGINES), default="both")


def run(folder, text, queries, options):
    """The status, the output and the messages of a session."""
    name = os.path.join(folder, "text.pl")
    with open(name, "wb") as file:
        file.write(text)
    done = subprocess.run([PROLOG, *options, name], input=queries, capture_output=True, timeout=60)
    return done.returncode, done.stdout, done.stderr


def is_text(data):
    try:
        data.decode("utf-8")
        return True
    except UnicodeDecodeError:
        return False


def broken(text, queries, writes, status, out, err):
    """The rule that this session breaks, or None."""
    if not is_text(text) or not is_text(queries):
        return None if status in (0, 1, 3) or b"end: halt" in out else "a status without a name"
    if not 0 <= status <= 255:
        return "ended by a signal"
    lines = out.decode("utf-8").split("\n")
    last = LINE.fullmatch(lines[-2]) if len(lines) > 1 else None
    if not writes:
        if lines[-1]:
            return "the last line has no end"
        wanted, over = 1, False
        for line in lines[:-1]:
            it = LINE.fullmatch(line)
            if it is None:
                return "a line that is none: %r" % line
            if over:
                return "a line behind the end"
            over = bool(it["halt"] or it["limit"])
            if it["answer"]:
                if int(it["answer"]) != wanted:
                    return "answers out of order"
                wanted += 1
            if it["end"]:
                wanted = 1
    halt, limit = (last["halt"], last["limit"]) if last else (None, None)
    if halt is not None:
        return None if status == int(halt) else "a halt with another status"
    if limit is not None:
        return None if status == 3 else "a limit with another status"
    return None if status == 0 else "a status without its line"


def rows_of(name):
    """The sessions of a file of crates/session_rows/data, but those with a limit of 0, which is no word of the
    program."""
    with open(os.path.join(TOP, "crates", "session_rows", "data", name), "rb") as file:
        data = tomllib.load(file)
    for row in data["session"]:
        if row.get("cells") == 0 or row.get("frames") == 0:
            continue
        yield {"text": data.get("text", ""), "queries": "", "output": "", "status": 0, **row}


def with_engines(row, engines):
    """The session, once for each of these engines that it is for."""
    return [dict(row, engine=name) for name in engines if row.get("engine", name) == name]


def options_of(row):
    words = [("--" + name, str(row[name])) for name in ("budget", "cells", "frames", "engine") if name in row]
    return [word for pair in words for word in pair]


def is_beginning(out, end, whole):
    """What was written, but for its last line, which is this end, is a beginning of the whole by whole lines. Only a
    line that goals write may be cut, and a newline stands behind it then."""
    if not out.endswith(end):
        return False
    begun = out[: -len(end)]
    if begun and not begun.endswith(b"\n"):
        return False
    if whole.startswith(begun):
        return True
    cut = begun[:-1]
    start = cut.rfind(b"\n") + 1
    line = whole[start:].split(b"\n")[0].decode("utf-8", "replace")
    return start < len(cut) and whole.startswith(cut) and LINE.fullmatch(line) is None


def difference(one, other):
    """What is wrong with two engines' runs of a session, or None. Both give the same status, output and messages, or
    a limit ended one of them, and it wrote a beginning of the other's output."""
    if one == other:
        return None
    for (status, out, _), (_, whole, _) in ((one, other), (other, one)):
        limit = re.search(rb"end: (heap full|frames full|no memory)\n\Z", out)
        if status == 3 and limit and is_beginning(out, limit[0], whole):
            return None
    return "the engines differ"
