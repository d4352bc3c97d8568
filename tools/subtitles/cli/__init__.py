"""The commands of qc: judging a pair, many pairs, or a folder, and the command of read.

single         judging one pair, printing the verdict, and writing its files
collection     tables, pages and files about many results
main           the command line, and the options that each mode accepts
read           tools/read: the pages of a recording
reference      --reference: judging a recording by another recording
measure        --measure: proposing a profile from correct recordings
batch          judging the pairs in a folder, a list, or a watched folder
state          the state file of a service, for monitoring
"""
