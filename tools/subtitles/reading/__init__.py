"""Reading the subtitles that a recording carries.

received  the pages that a receiver showed, and what a subtitle file can't express
result    the verdict on a page, and its JSON values
judge     reading a page, and judging the recording by it
reference judging another recording by what was read
"""
