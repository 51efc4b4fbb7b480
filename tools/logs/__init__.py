"""What tools/from-log and tools/cut-log share: reading logs, what a log holds, its orders, its trace, and pieces of it."""
