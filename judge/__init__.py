"""Says for each file system whether a command keeps its files, whenever the power fails. See docs/JUDGING.md."""
