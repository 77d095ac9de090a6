"""What tools/show, tools/why, tools/counters, tools/convert and tools/signatures say of files, over the
rules of the second program. Not proved."""
