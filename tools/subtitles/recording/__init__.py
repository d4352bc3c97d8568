"""Read a recording from a file or a pipe, and find anomalies.

dates          find the date on which a recording was made, and the times in it
notices        warn about a recording, and refuse one whose announced page is never sent
recording      read a recording, find the PID of the page, and copy a pipe to a file
"""
