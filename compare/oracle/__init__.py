"""A mesh node that is written from the standard and from docs/FORMATS.md, to compare reports with.

ciphers -> pdus -> records, flash, segments, models, configuration, publications, iv_index -> node
-> low_power -> script, report: a module imports those before it alone.
"""
