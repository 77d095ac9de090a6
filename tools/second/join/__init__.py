"""Joining two lists, and folding one: the rules, the commands, the cases, and wrong versions of the rules."""
