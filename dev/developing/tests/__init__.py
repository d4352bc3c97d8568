"""Tests of the tools, run by dev/check-tools. Each module `test_*` tests a tool or a task.

Helper modules, each importing only modules above it:

failures           the message of a failed check
bench              the base class of tests, with folders, calls to tools, and checks
transmissions      subtitle files, page transmissions, pipes
streams            transport streams
inserters          random programmes as simulated inserters send them
judged             judge pairs in this process
parts              answers, parts, requests and other values used by the tools
results            JSON results, checked by their schema
programmes         subtitle files and transmissions of whole programmes
air                segments and schedules for the tests of tools/air
named_calls        named runs of qc
snapshots          stored outputs in dev/snapshots/
table              maps modules of the tools to their tests
runner             finds tests and runs them in parallel
"""
