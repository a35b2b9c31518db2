"""Times the kernel, the codes by several workers, a put and a get beside other programs on the same 64 MiB: a table and a drawing.

    python3 bench/kernels.py PROGRAM TIMER SCRATCH TURNS DRAWING

PROGRAM is nccloud, TIMER nc_bench. bench/kernels.sh builds both, and calls this."""
import os
import shutil
import subprocess
import sys
import time

from drawing import Bar, drawn
from turns import least_of_turns, par2_words, used_by

try:
    import zfec
except ImportError:
    zfec = None

SIZE = 1 << 26
WIDTHS = (4, 7, 10)
FOUR_HASHES = 'for number in 1 2 3 4; do sha256sum "$0" & done; wait'
COPIES_AND_HASH = 'cp "$0" "$1" && sync "$1" && cp "$0" "$2" && sync "$2" && sha256sum "$0"'


def told(*words):
    """How many seconds a turn takes by the timer, which tells microseconds."""
    return int(subprocess.check_output(words)) / 1e6


def zfec_encoding(width, content):
    """How many seconds zfec takes for 4 chunks beside the 2 * (width - 2) that the file is cut into."""
    count = 2 * (width - 2)
    share = -(-SIZE // count)
    natives = [content[share * i:share * (i + 1)].ljust(share, b"\0") for i in range(count)]
    encoder = zfec.Encoder(count, count + 4)
    start = time.perf_counter()
    encoder.encode(natives)
    return time.perf_counter() - start


def code_rows(timer):
    """The kernel, and encoding and decoding."""
    rows = {
        "kernel on 32 KiB": lambda: told(timer, "kernel", "32768", str(SIZE >> 15), "2"),
        "kernel on 64 MiB": lambda: told(timer, "kernel", str(SIZE), "1", "2"),
    }
    for width in WIDTHS:
        for word in ("encode", "decode"):
            for workers in (1, 2, 4):
                words = (timer, word, str(width), str(SIZE), str(workers), "2")
                rows[f"{word}, width {width}, {shown(workers)}"] = lambda words=words: told(*words)
    return rows


def vault_rows(program, file, folders):
    """A put and a get on 4 folders of their own for each number of workers."""
    rows = {}
    for word in ("put", "get"):
        for workers, clouds in folders.items():
            title = f"{word}, width 4, {shown(workers)}"
            words = [program, ",".join(clouds), "--workers", str(workers), word, "file"]
            rows[title] = lambda title=title, words=words: used_by(title, words, file).seconds
    return rows


def other_rows(file, others):
    """Other programs on the same bytes, where they are there."""
    commands = {
        "sha256sum": ["sha256sum", file],
        "four sha256sum at once": ["sh", "-c", FOUR_HASHES, file],
        "cp": ["cp", file, others + "/cp"],
        "two copies synced and sha256sum": ["sh", "-c", COPIES_AND_HASH, file, others + "/one", others + "/two"],
    }
    if shutil.which("par2create"):
        for width in WIDTHS:
            commands[f"par2create, as width {width}"] = par2_words(width, f"{others}/par{width}", file)
    rows = {title: lambda title=title, words=words: used_by(title, words).seconds for title, words in commands.items()}
    if zfec:
        with open(file, "rb") as source:
            content = source.read()
        for width in WIDTHS:
            rows[f"zfec, as width {width}"] = lambda width=width: zfec_encoding(width, content)
    return rows


def shown(workers):
    return "1 worker" if workers == 1 else f"{workers} workers"


def prepare(scratch):
    """The folders are there and empty, and what earlier turns wrote is on the disk."""
    folders = {workers: [f"{scratch}/by{workers}/cloud{number}" for number in range(4)] for workers in (1, 4)}
    for folder in [scratch + "/others", *sum(folders.values(), [])]:
        shutil.rmtree(folder, ignore_errors=True)
        os.makedirs(folder)
    os.sync()
    return folders


def bars_of(least):
    """The ratio of each row to sha256sum, and before them the two that have an aim."""
    copies, hashed = least["two copies synced and sha256sum"], least["sha256sum"]
    aimed = [
        Bar("put, width 4, 4 workers, to two copies synced and sha256sum", least["put, width 4, 4 workers"] / copies, 1.5),
        Bar("get, width 4, 4 workers, to sha256sum of the bytes read", least["get, width 4, 4 workers"] / hashed, 1.0),
    ]
    return aimed, [Bar(title, seconds / hashed, None) for title, seconds in least.items()]


def main(program, timer, scratch, turns, drawing):
    file = scratch + "/file"
    with open(file, "wb") as sink:
        sink.write(os.urandom(SIZE))
    folders = prepare(scratch)
    rows = {**code_rows(timer), **vault_rows(program, file, folders), **other_rows(file, scratch + "/others")}
    least = least_of_turns(int(turns), lambda number: rows, lambda: prepare(scratch), lambda title: rows[title]())
    aimed, bars = bars_of(least)
    print(f"64 MiB, the least of {turns} turns, on {os.cpu_count()} processors.\n")
    for word, there in (("par2create", shutil.which("par2create")), ("zfec", zfec)):
        if not there:
            print(f"{word} isn't installed.\n")
    print("| What | ms | MB/s | To sha256sum |")
    print("|---|---|---|---|")
    for bar in bars:
        seconds = least[bar.label]
        print(f"| {bar.label} | {seconds * 1000:.1f} | {SIZE / seconds / 1e6:.0f} | {bar.ratio:.2f} |")
    for bar in aimed:
        print(f"| **{bar.label}** | | | **{bar.ratio:.2f}**, at most {bar.aim} is wanted |")
    with open(drawing, "w", encoding="utf-8") as sink:
        sink.write(drawn("Time of 64 MiB, as a multiple of sha256sum's", aimed + bars))
    print(f"\n{drawing} shows the ratios.")


if __name__ == "__main__":
    main(*sys.argv[1:])
