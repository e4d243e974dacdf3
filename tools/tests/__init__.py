"""Tests of the tools. What is expected comes from outside: the reports and refusals of worked/,
which the program is run against, sample data of the Mesh Profile, docs/FORMATS.md, and tshark."""
