"""Signature texts and their compiler: the rules, the commands, the cases, and wrong versions of the rules."""
