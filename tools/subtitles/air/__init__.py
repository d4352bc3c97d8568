"""Record a feed that never ends, and judge its programmes by their air times.

segments    segments in a folder, and continuous parts of the feed
recorder    writing segments, and deleting the oldest
delivery    whether a subtitle file is complete
schedule    when each programme is on air, and how it is judged
check       judging a programme from a continuous part of the feed, in a forked process
decision    choosing the result of a programme
state       state of the feed, the disks, the schedule and the results
judge       judging the programmes of a schedule
status      state files as a line for Nagios and as metrics for Prometheus
main        command line of tools/air

The only state is the segments and results: a programme with a JSON result is not judged again.
"""
