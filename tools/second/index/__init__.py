"""The index of splits, the prepared feed, and splits with an index straight from a list: the rules, the commands, the cases, and wrong versions of the rules."""
