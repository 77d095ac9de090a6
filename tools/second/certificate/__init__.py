"""Certificates that an automaton with bits and counters is a list's: the rules, the commands, the cases, and wrong versions of the rules."""
