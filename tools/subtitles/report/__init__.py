"""The report: an HTML page about a verdict.

blocks      refused subtitles of a subtitle file
cue_list    a row for each subtitle: expected and actual cues, text, verdict
pictures    pages as a level 1 Teletext receiver shows them
timeline    the timeline of a part of the recording
page        the complete page
"""
