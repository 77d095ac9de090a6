"""The second program: test vectors for the matcher, made from the rules alone. README.md has its parts."""
