"""Result files: JSON, CSV and JUnit.

schema         tables of the members of JSON results, from which the schema is made
files          writing JSON, CSV and JUnit files, and reading JSON results
"""
