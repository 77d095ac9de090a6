"""The questions why: the rules, the commands, the cases, and wrong versions of the rules."""
