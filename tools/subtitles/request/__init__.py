"""The request for a pair: its options, from the command line, a profile or a list.

request        the table of options, profiles, and the request for a pair
commands       suggested commands, names of result files, and printing
lines          lists and profiles, and the pairs in a list or folder
"""
