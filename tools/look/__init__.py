"""What the tools beside this folder are made of.

ends, forms, opcodes -> script, report -> runs -> numbers, second_node, hearing, keys, and over
these
advertising, pcapng, wireshark, capturing: a capture; cases, checking: its check by tshark;
svg, marks, cards, cells, page: a picture; meanings, explaining: an explanation.
A module imports those before it in its line and those of the first line alone.
"""
