"""A second implementation of `survey` for dev/check-survey, written from the manual page only."""
