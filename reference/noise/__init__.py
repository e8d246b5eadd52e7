"""Images and scripts that nobody would write, the same for the same seed.

`images` makes lists of images that no operation makes. `listed` answers on the images of a list, as the program crate
`hostile_images` does.
`scripts` makes scripts from seeds, and `feed` feeds a program other scripts that are none.
"""
