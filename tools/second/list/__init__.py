"""The signature list, opening and the plain feed: the rules, the commands, the cases, and wrong versions of the rules."""
