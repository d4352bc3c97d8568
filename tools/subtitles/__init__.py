"""The Python modules of tools/qc, tools/air and tools/read.

A package imports only from packages above it in this list, which `dev/check-tools` tests. The
docstring of each package lists its modules.

common     shared helpers: command line, files, times, JSON values, running the program
formats    file formats: EBU STL, Teletext, layouts, and output lines of `check`
request    the request for a pair: options, lists, profiles, and commands for the operator
stream     contents of a recording, from the output of `subttx survey`
clock      the origin of the clock: estimating it, or checking a given origin
recording  reading a recording from a file or a pipe, choosing the PID, and warnings
judging    judging a pair: running `check` on its parts, causes of faults, and the verdict
results    result files: JSON, CSV and JUnit
report     the HTML page about a verdict
reading    reading the subtitles that a recording carries
cli        the commands of qc: judging a pair, many pairs, or a folder; and of tools/read
air        recording and judging programmes on air, for tools/air

To find                                See
how a pair is judged, step by step     cli/single.py, then `PairJudge.judge` of judging/pair.py
how the PID is chosen                  recording/recording.py
how the origin is found                clock/origin.py
how a part is judged                   judging/pair.py `judge_part`, its values judging/part.py
how PES packets are selected           stream/ranges.py
how a loss of 16 TS packets is found   stream/pace.py, for a part judging/timing.py
how the verdict is decided             judging/status.py `decide`
how the sentence is written            judging/sentence.py `write_sentence`
how subtitles are read                 reading/received.py `read_pages`
where to add an option                 request/request.py `OPTIONS`
where to add a member of a result      results/schema.py
"""
import os
import sys


def end_early(kind, reason, _):  # type: ignore[no-untyped-def]  # old Python versions lack hints
    """Exit with status 2 if a tool can't be loaded, since status 1 would mean a verdict."""
    line = "%s: %s: %s\n" % (os.path.basename(sys.argv[0]), kind.__name__, reason)
    try:
        sys.stderr.write(" ".join(line.split()) + "\n")
        sys.stderr.flush()
    finally:  # standard error may be closed, or its disk may be full
        os._exit(2)


if not hasattr(sys, "ps1"):
    sys.excepthook = end_early
