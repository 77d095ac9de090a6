"""The automaton with bits and counters: the rules, the commands, the cases, and wrong versions of the rules."""
