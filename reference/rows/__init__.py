"""Worked rows: scripts, disks and command lines whose answers were worked out by hand from the definitions."""
