"""A second implementation of the program, written from the definitions alone.

It computes the expected output for dev/check-every-place, which compares the program with it.

For `check --all`:

reading            parse subtitle files, PES packets and Teletext packets, and find their faults
arguments          parse the options of `check`, and find their faults
national           national options: bits of a header, and the bytes of each character
rows               the page that a subtitle draws
due                faults of a subtitle file, and the expected pages
on_air             the page that a receiver decodes, and the rules for packets
ends               faults at the ends of frames
definitions        all faults of a pair of files, as lines
trust              frames that are trusted in spite of faults
told               the printed lines and the names of faults
recordings         PES packets of a transport stream, and ranges of them

For other commands:

scheduling         what `schedule` writes
listening          what `packets` and `listen` print
calls              calls of the program, and their expected output

Examples with a known result:

known              pairs of files that the crates' tests do not contain
within             pairs with late pages, or with headers that do not erase the page
one_file           pairs at limits of subtitle files that random pairs do not reach
one_rule           pairs of files that break one rule
recorded           calls about transport streams and ranges of PES packets
carried_laws       properties of recordings, on random streams

Random examples:

pairs              pairs of files with faults
broadcasters       layouts, time ranges, headers that keep the page, refused subtitles
broken             transmissions with faults
late               late transmissions, in two fields, with inexact PTS
streams            transport streams with losses and faults
random_calls       calls on random transport streams
trying             call the program, and compare its output
"""
