"""Writes journal.txt, with 65,535 records, and transcript.txt, with 100,000 lines, the same bytes each time."""

g = 5


def draw(m):
    global g
    g = (g * 6364136223846793005 + 1442695040888963407) % 2**64
    return (g >> 33) % m


def cell(m):
    return f"{draw(m)} {draw(m)} {draw(m)}"


def size():
    return f"{1 + draw(90)} {1 + draw(90)} {1 + draw(90)}"


def act():
    kind = draw(8)
    if kind < 2:
        return f"{('fill', 'erase')[kind]} {cell(4000)} {size()}"
    if kind < 4:
        return f"{('ball', 'carve')[kind - 2]} {cell(4096)} {draw(4096)}"
    if kind == 4:
        return f"copy {cell(4000)} {size()} to {cell(4000)}"
    if kind == 5:
        return f"stamp {draw(1024)} {cell(4096)}"
    return ("undo", "redo")[kind - 6]


def answer(n):
    return (
        "ok", f"forgot {draw(n + 1)}", "set", "clear", f"count {draw(2**31)}", f"faces {draw(2**31)}", "bounds none",
        f"bounds {cell(4000)} {size()}", f"hit {cell(4096)}", "miss", "same", "different", "head", f"saved {draw(2**24)}",
        f"full {draw(11)} {draw(4096)}", f"no version {n + 1}", f"forgotten {draw(n + 1)}", "is head", "nothing to undo",
        "nothing to redo", "log full", f"stale {draw(n + 1)}",
    )[draw(22)]


with open("journal.txt", "w") as out:
    out.write("voxdag journal 1\nside 4096\n")
    for n in range(1, 65536):
        out.write(f"{n} {draw(64)} {1 + draw(100000)} {act()}\n")
    for version in range(0, 65535, 7):
        out.write(f"mark {version} {version + 1 + draw(65535 - version)} {draw(64)} {1 + draw(100000)}\n")
    out.write("end\n")
with open("transcript.txt", "w") as out:
    moment = 0
    for line in range(1, 100001):
        moment += draw(2)
        out.write(f"{line} @{moment} {answer(moment)}\n")
