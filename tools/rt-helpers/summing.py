"""What the tools share that read crates by rt's own library: each crate's sources are summed up once, not once a way to it."""
import os


def remember(rtlib):
    """From here on sums, and lists of what stands below, are remembered."""
    sum_up, list_below, sums, lists = rtlib.Crate.stamp, rtlib.Crate.below, {}, {}

    def stamp(crate):
        if crate.folder not in sums:
            sums[crate.folder] = sum_up(crate)
        return sums[crate.folder]

    def below(crate):
        if id(crate) not in lists:
            lists[id(crate)] = crate, list_below(crate)
        return [*lists[id(crate)][1]]

    rtlib.Crate.stamp, rtlib.Crate.below = stamp, below


def crates_of(rtlib, root):
    os.chdir(root)
    return {crate.name: crate for crate in rtlib.crates_below(str(root))}
