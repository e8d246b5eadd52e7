"""An independent program that answers what crashmap answers, slowly and directly, from the definitions.

It shares no code with crashmap. Images are lists of bytes that patches are put on, closed sets are found by adding one
patch at a time, and dependencies are a relation on pairs of patches. The folder's README names the commands.
"""
