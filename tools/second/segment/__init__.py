"""Segments by sequence number, and renewals: the rules, the commands, the cases, and wrong versions of the rules."""
