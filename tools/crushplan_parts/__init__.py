"""crushplan: what a cluster's own dumps say of a drain, a failure or a changed map.

It is a client of crushcalc. Where groups lie, and which can move, is what crushcalc answers; this
program reads the dumps, asks, and adds up.
"""
