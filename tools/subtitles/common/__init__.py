"""Modules for all tools: arguments, files, times, JSON values, and the program.

command_line   arguments, messages and exit status of a tool
files          reading files with a limit, writing them completely or not at all, SHA-256
times          times of day, frames, PTS; spans of frames or of PES packets
shapes         types of JSON values, and their schema
markup         markup for HTML pages, with escaped text
checks         the checks that a result depends on, and the kinds of what was not checked
program        the built program, its line in PROVED, and its installation
"""
