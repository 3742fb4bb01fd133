"""Reads the files of sq for the tools beside it: tokens, and trees of programs, mappings, machines and costs, in which
each part knows its place. docs/FORMATS.md and docs/LANGUAGE.md have the grammars.

What doesn't read raises Unread with the code and the place that sq gives, and with what may stand there. No other fault
is looked for: that is sq's work.
"""
