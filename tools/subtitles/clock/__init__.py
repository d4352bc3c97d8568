"""Estimate the origin (the PTS of the subtitle file's 00:00:00:00), or compute it from `--start`.

alignment      compare cues with page changes: origins, delays and drift
stretches      find the parts between breaks, and repeated airings
origin         estimate the origin of a recording, and report on it
start          the clock of a part, and the clock that `--start` sets
"""
