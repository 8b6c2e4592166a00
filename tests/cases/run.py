#!/usr/bin/env python3
"""run.py COMMAND [GROUP | GROUP/CASE ..]

Runs the acceptance cases beside this file, of the groups or cases that are named or of all, with
COMMAND, a program or a command line in one word, as the beginning of the command line:
tests/cases/run.py crates/gasday/out/gasday

A case is a file GROUP/CASE.case of parts, each behind a line `-- PART --` (the form of Go's txtar), and is run in an
empty folder of its own. A part whose bytes a line of text can't show stands behind `-- PART escaped --` with backslash
escapes; its own line breaks stand for nothing. The parts are

  args    the words after COMMAND, one a line; may be empty
  stdin   the bytes of standard input
  status  the exit status that is wanted
  stdout  the bytes that are wanted on standard output
  stderr  the bytes that are wanted on standard error, where they are asked for
  check   in place of stdout, where `solve` is free in its answer: the bytes with which the output
          must begin. All of it must have the form of an answer, and its schedule and prices, or its
          set, are put behind the question and given to `check best` or `check cut`, which must
          answer with the same totals or excess, and so must `check QUESTION ANSWER` of the whole
  pattern in place of stdout, where sessions run at once: the rows that are wanted, with * for a field that may hold
          anything
  script  in place of args, stdin and status: a bash script that runs the program as "$GASDAY", and
          whose own standard output is compared with stdout

A case that fails is printed as FAIL GROUP/CASE with the first rows that differ: '-' what was
wanted, '+' what came. The last line is 'N passed, M failed', and the exit status is 0 only where
cases were found and none failed.
"""
import csv
import io
import os
import re
import shlex
import signal
import subprocess
import sys
import tempfile
from concurrent.futures import ThreadPoolExecutor

HERE = os.path.dirname(os.path.abspath(__file__))
ENDING = ".case"
# Seconds after which a program counts as hanging: each takes a few at most, but the machine may be busy with other work.
LIMIT = 600
ROWS_SHOWN = 6
WIDTH_SHOWN = 160


class Wrong(Exception):
    """The case can't be run, or did not end in time."""


def words_of(command):
    """The words of COMMAND, with absolute paths: each case runs in a folder of its own."""
    words = [command] if os.path.isfile(command) else shlex.split(command)
    if not words:
        raise SystemExit("run: COMMAND is empty")
    return [os.path.abspath(word) if os.path.isfile(word) and (place or os.sep in word) else word
            for place, word in enumerate(words)]


def cases_in(group):
    """The cases of a group, by name."""
    names = os.listdir(os.path.join(HERE, group))
    return sorted(name[:-len(ENDING)] for name in names if name.endswith(ENDING))


def cases_named(names):
    """The cases (group, case) of these names, each once; all where there are no names."""
    groups = sorted(n for n in os.listdir(HERE) if os.path.isdir(os.path.join(HERE, n)))
    cases = [(group, case) for group in groups for case in cases_in(group)]
    if not names:
        return cases
    picked = []
    for name in names:
        name = name.rstrip("/")
        found = [(g, c) for g, c in cases if name in (g, g + "/" + c)]
        if not found:
            raise SystemExit("run: no group or case " + name)
        picked += [case for case in found if case not in picked]
    return picked


def unescaped(data):
    """The bytes that escaped text stands for."""
    return data.replace(b"\n", b"").decode("unicode_escape").encode("latin-1")


def load(group, case):
    """The parts of a case by name."""
    with open(os.path.join(HERE, group, case + ENDING), "rb") as file:
        parts = re.split(rb"(?m)^-- ([a-z]+)( escaped)? --\n", file.read())
    if parts[0]:
        raise Wrong("the case doesn't begin with a part")
    named = zip(parts[1::3], parts[2::3], parts[3::3])
    return {name.decode(): unescaped(data) if escaped else data for name, escaped, data in named}


def wanted(parts, name):
    if name not in parts:
        raise Wrong("the case has no part '%s'" % name)
    return parts[name]


def number_in(data, name):
    try:
        return int(data)
    except ValueError:
        raise Wrong("'%s' holds no number" % name) from None


def call(words, stdin, **options):
    """Standard output, exit status and standard error of a program, which is killed with all that it started where it hangs."""
    child = subprocess.Popen(words, stdin=subprocess.PIPE, stdout=subprocess.PIPE,
                             stderr=subprocess.PIPE, start_new_session=True, **options)
    try:
        out, told = child.communicate(stdin, timeout=LIMIT)
    except subprocess.TimeoutExpired:
        os.killpg(child.pid, signal.SIGKILL)
        child.communicate()
        raise Wrong("not ready after %d seconds" % LIMIT) from None
    return out, child.returncode, told


def write_wrapper(words, folder):
    """Writes a program that scripts run as $GASDAY. It is written before any thread starts another program, which would hold the
    file open for writing for a moment, so that to run it then would fail."""
    program = os.path.join(folder, "gasday-under-test")
    with open(program, "w") as file:
        file.write('#!/bin/sh\nexec %s "$@"\n' % " ".join(map(shlex.quote, words)))
    os.chmod(program, 0o755)
    return program


def run_script(wrapper, script, scratch):
    """What a script prints, as `call` answers it, with the program as $GASDAY."""
    env = dict(os.environ, GASDAY=wrapper, TMPDIR=scratch, LC_ALL="C")
    place = os.path.join(scratch, "script")
    with open(place, "wb") as file:
        file.write(script)
    return call(["bash", place], b"", cwd=os.path.join(scratch, "work"), env=env)


def differences(want, got):
    """The first rows that differ, in a few lines; none where the bytes are the same."""
    if want == got:
        return []
    old, new = want.split(b"\n"), got.split(b"\n")
    at = 0
    while at < min(len(old), len(new)) and old[at] == new[at]:
        at += 1

    def shown(mark, rows):
        return [mark + row.decode("utf-8", "backslashreplace")[:WIDTH_SHOWN]
                for row in rows[at:at + ROWS_SHOWN]]
    return ["from row %d on" % (at + 1)] + shown("- ", old) + shown("+ ", new)


def unlike(pattern, got):
    """The first rows that differ where a lone * in the pattern stands for any field."""
    want, have = ([row.split(b",") for row in text.split(b"\n")] for text in (pattern, got))
    for at, row in enumerate(want):
        if at < len(have) and len(row) == len(have[at]):
            row[:] = [field if wish == b"*" else wish for wish, field in zip(row, have[at])]
    return differences(b"\n".join(b",".join(row) for row in want), got)


def rows_in(text):
    """The rows of a text, as lists of fields."""
    return [row for row in csv.reader(io.StringIO(text.decode(), newline="")) if row]


def written(rows):
    return "".join(",".join(row) + "\n" for row in rows).encode()


def rises(places):
    return all(low < high for low, high in zip(places, places[1:]))


def is_price(row):
    """Whether a row has a price's form, with a word that isn't 0, and no spread of 0 is printed."""
    word, spread = row[3:5]
    return row[0] == "price" and row[5:] == [""] * 3 and spread != "0" and (word, spread) != ("0", "")


def priced_faults(question, offered):
    """What is wrong with the form of a schedule's rows and its prices' rows behind them."""
    lines = sum(row[0] == "line" for row in question)
    names = [row[1] for kind in ("segment", "point", "pool") for row in question if row[0] == kind]
    place = {name: at for at, name in enumerate(names)}
    prices = offered[lines:]
    for at, row in enumerate(offered[:lines]):
        if row[:2] != ["sched", str(at + 1)] or row[3:] != [""] * 5:
            return ["not the row of line %d: %s" % (at + 1, ",".join(row))]
    if len(offered) < lines:
        return ["%d of %d lines have a quantity" % (len(offered), lines)]
    for row in prices:
        if not is_price(row) or row[1] not in place:
            return ["not a row of a price: " + ",".join(row)]
    if not rises([(place[row[1]], int(row[2])) for row in prices]):
        return ["the prices don't stand by element and then by level"]
    return []


def set_faults(question, offered):
    """What is wrong with the form of a set's rows."""
    places = dict.fromkeys(end for row in question if row[0] == "segment" for end in row[2:4])
    members = [("place", name) for name in places]
    members += [(kind, row[1]) for kind in ("point", "pool") for row in question if row[0] == kind]
    order = {member: at for at, member in enumerate(members)}
    for row in offered:
        if row[0] != "inside" or tuple(row[1:3]) not in order or row[3:] != [""] * 5:
            return ["not a row of the set: " + ",".join(row)]
    if not rises([order[tuple(row[1:3])] for row in offered]):
        return ["the set doesn't stand in order of entry"]
    return []


def answer_faults(run_again, check_whole, stdin, begins, got):
    """What is wrong with an answer of `solve` that has to begin so; run_again runs the program on
    words and a text, and check_whole its check of a question and a whole answer."""
    if not got.startswith(begins):
        return differences(begins, got[:len(begins)])
    answer, question = rows_in(got), rows_in(stdin)
    if written(answer) != got or any(len(row) != 8 for row in answer):
        return ["not all rows have eight plain fields and a line feed"]
    kind = answer[0][0] if answer else ""
    if kind not in ("best", "cut"):
        return ["the first row tells neither a best schedule nor a cut"]
    head = 1
    while head < len(answer) and answer[head][0] == "total":
        head += 1
    offered = answer[head:]
    faults = (priced_faults if kind == "best" else set_faults)(question, offered)
    if faults:
        return faults
    ended = stdin if stdin.endswith((b"\n", b"\r")) else stdin + b"\n"
    again, came = run_again(["check", kind], ended + written(offered))
    faults = [] if came == 0 else ["`check %s` ends with status %d" % (kind, came)]
    faults += differences(written(answer[:head]), again)
    whole, came = check_whole(stdin, got)
    faults += [] if came == 0 else ["`check QUESTION ANSWER` ends with status %d" % came]
    return faults + differences(written(answer[:head]), whole)


def told_faults(parts, told):
    """What is wrong with standard error, where the case asks for it."""
    if "stderr" not in parts:
        return []
    return ["standard error " + line for line in differences(parts["stderr"], told)]


def faults_of(words, wrapper, parts):
    """What is wrong with the program at the case of these parts, in lines; none where it passes."""
    begins, pattern = parts.get("check"), parts.get("pattern")
    want = wanted(parts, "stdout") if begins is None and pattern is None else b""
    with tempfile.TemporaryDirectory() as scratch:
        work = os.path.join(scratch, "work")
        os.mkdir(work)
        if "script" in parts:
            got, _, told = run_script(wrapper, parts["script"], scratch)
            return told_faults(parts, told) + differences(want, got)
        args = wanted(parts, "args").decode().split("\n")
        if args[-1] == "":
            args.pop()
        status = number_in(wanted(parts, "status"), "status")
        stdin = wanted(parts, "stdin")
        got, came, told = call(words + args, stdin, cwd=work)
        told = told_faults(parts, told)
        told += [] if came == status else ["status %d in place of %d" % (came, status)]
        if pattern is not None:
            return told + unlike(pattern, got)
        if begins is None:
            return told + differences(want, got)

        def run_again(args, text):
            return call(words + args, text, cwd=work)[:2]

        def check_whole(question, answer):
            place = os.path.join(scratch, "answer.csv")
            with open(place, "wb") as file:
                file.write(answer)
            return run_again(["check", "-", place], question)
        return told + answer_faults(run_again, check_whole, stdin, begins, got)


def run_case(words, wrapper, case):
    try:
        return faults_of(words, wrapper, load(*case))
    except (OSError, UnicodeError, Wrong) as error:
        return [str(error)]


def main():
    if len(sys.argv) < 2 or sys.argv[1] in ("-h", "--help"):
        print(__doc__.strip())
        return 2
    words = words_of(sys.argv[1])
    cases = cases_named(sys.argv[2:])
    failed = 0
    with tempfile.TemporaryDirectory() as folder, ThreadPoolExecutor(os.cpu_count() or 2) as pool:
        wrapper = write_wrapper(words, folder)
        for case, faults in zip(cases, pool.map(lambda case: run_case(words, wrapper, case), cases)):
            if faults:
                failed += 1
                print("FAIL %s/%s" % case)
                print("\n".join("    " + line for line in faults), flush=True)
    print("%d passed, %d failed" % (len(cases) - failed, failed))
    return 0 if cases and not failed else 1


if __name__ == "__main__":
    sys.exit(main())
