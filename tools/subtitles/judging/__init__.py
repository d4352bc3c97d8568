"""Judge a pair: run `check` on its parts, and explain its faults.

waivers        waivers of a severity file, each for one fault in one subtitle
status         the verdict in one word, and its exit status
check          running `check --all`, and reading the faults that it prints
pages          text of pages, differences between pages, rows that no receiver shows
transmissions  page transmissions with their headers, expected pages, and subtitles
causes         the reason why each subtitle is refused
sentence       the fault to report first, and the sentence about the verdict
subtitles      refused subtitles, advice on them, and the subtitles that are judged anyway
cues           when each subtitle was expected, and when a receiver decoded it
part           a part of a pair, with its frames, PES packets and faults
unchecked      kinds of what was not checked, and pictures that were not compared
desync         pictures that drift from the subtitles
timing         the parts of a recording: clocks, PES packets and their intervals
verdict        the verdict on a pair, with its texts, gaps and delays
coverage       a list of everything that was not checked
faults         the faults of a verdict, with their places, details and hints
pair           judging a pair step by step, and explaining why a part is refused
"""
