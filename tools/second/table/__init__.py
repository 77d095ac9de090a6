"""The split table, its feed and its builder: the rules, the commands, the cases, and wrong versions of the rules."""
