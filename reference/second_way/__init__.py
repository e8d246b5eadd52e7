"""A second way to `--decide`, and to `--enough` of one script, for scripts with any number of closed sets.

Nothing is enumerated. The base and the patches are made as by the first way. The image, the replay and the faults are
said once more, as tests of single faults that ask for single bytes.

A family is all closed sets that have the patches of a set `inside` and none of a set `outside`. `inside` is closed, and
with a patch `outside` has all that depend on it. A test runs on the image of `inside`. Where it asks something of a
byte, and a patch that is in neither set would change the answer, the family is split by this patch: into the sets
without it, whose `outside` has the patch and all that depend on it, and the sets with it, whose `inside` has the patch
and all that it depends on. Otherwise the verdict holds for every set of the family: the patches of one byte overlap, so
each depends on those before it, and whichever of them a set has, the answer is the same. A test that asks for several
bytes can be settled while some of them are open: "all of these" by one that is surely no, "at least two" by two that
are surely yes. A promise is asked about more than one family, one for each of the rests that sets can have reached. The
least set of a family is `inside`, so of families in the order of these sets the first one for which
a test holds has the first set.
"""
