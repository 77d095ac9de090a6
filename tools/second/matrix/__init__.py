"""The bit matrix and its feed: the rules, the commands, the cases, and wrong versions of the rules."""
