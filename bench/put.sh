#!/usr/bin/env bash
# Times `put` and `get` of 64 MiB and of a byte on 4 and on 10 folders, and `repair`, `restore` and `scrub` of 64 MiB, beside
# other programs, in turn. bench/README.md says what it means.
set -eu
cd "$(dirname "$0")/.."
program=$PWD/crates/nccloud/out/nccloud
(cd crates/nccloud && rt run -- a,b,c,d get </dev/null) >/dev/null 2>&1 || [ -x "$program" ]
scratch=$(mktemp -d)
trap 'rm -rf "$scratch"' EXIT
head -c 67108864 /dev/urandom >"$scratch/file"
PYTHONPATH=bench python3 - "$program" "$scratch" "${1:-5}" <<'PYTHON'
import os, shutil, subprocess, sys

from turns import least_of_turns, par2_words, used_by

program, scratch, runs = sys.argv[1], sys.argv[2], int(sys.argv[3])
file, byte, others = scratch + "/file", scratch + "/byte", scratch + "/others"
size = os.path.getsize(file)
with open(byte, "wb") as sink:
    sink.write(b"x")
folders = {width: [f"{scratch}/of{width}/cloud{number}" for number in range(width)] for width in (4, 10)}
lost = [f"{scratch}/lost{number}" for number in range(2)]
# vaults that hold the file alone, by use and width, and how many clouds they have lost, the first ones
losses = {"repaired": 1, "again": 1, "restored": 1, "twice": 2}
damaged = {
    (use, width): [f"{scratch}/{use}{width}/cloud{number}" for number in range(width)]
    for use in losses for width in (4, 10)
}


def empty(folder):
    shutil.rmtree(folder, ignore_errors=True)
    os.makedirs(folder)


def prepare():
    """All folders that the commands write to are there, and empty but for the damaged vaults."""
    for folder in [others, *lost, *folders[4], *folders[10], *sum(damaged.values(), [])]:
        empty(folder)
    for (use, _), clouds in damaged.items():
        with open(file, "rb") as source:
            subprocess.run([program, ",".join(clouds), "put", "file"], stdin=source, stdout=subprocess.DEVNULL, check=True)
        for folder in clouds[:losses[use]]:
            empty(folder)


def repeated(name, length):
    """A file of so many bytes: the file, over and over. It isn't read as a whole: no peak is less than that of the script."""
    path = f"{scratch}/{name}"
    with open(path, "wb") as sink:
        while sink.tell() < length:
            with open(file, "rb") as source:
                shutil.copyfileobj(source, sink)
    os.truncate(path, length)
    return path


# what is timed, by name: the words, and the input
commands = {}
for width in (4, 10):
    clouds = ",".join(folders[width])
    for what, given in (("", file), (" of a byte", byte)):
        for title, command in (("put", "put"), ("put over it", "put"), ("get", "get")):
            commands[f"{title}{what}, {width} clouds"] = ([program, clouds, command, os.path.basename(given)], given)
    left = ",".join(lost + folders[width][2:])
    commands[f"get, two of {width} clouds lost"] = ([program, left, "get", "file"], file)
get_and_put = '"$0" "$1" get file >"$2" && "$0" "$1" put file <"$2"'
for width in (4, 10):
    of = {use: ",".join(damaged[use, width]) for use in losses}
    chunk = -(-size // (2 * (width - 2)))
    commands[f"repair, {width} clouds"] = ([program, of["repaired"], "repair", "0"], byte)
    commands[f"restore of one, {width} clouds"] = ([program, of["restored"], "restore", "0"], byte)
    commands[f"restore of two, {width} clouds"] = ([program, of["twice"], "restore", "0", "1"], byte)
    commands[f"get and put again, {width} clouds"] = (["sh", "-c", get_and_put, program, of["again"], others + "/back"], byte)
    commands[f"sha256sum of what a repair reads, {width} clouds"] = (["sha256sum"], repeated(f"repair{width}", (width - 1) * chunk))
    commands[f"scrub, {width} clouds"] = ([program, of["restored"], "scrub"], byte)  # once this vault is whole
    commands[f"sha256sum of what a scrub reads, {width} clouds"] = (["sha256sum"], repeated(f"scrub{width}", 2 * width * chunk))
commands["sha256sum"] = (["sha256sum"], file)
commands["cp"] = (["cp", file, others + "/cp"], file)
commands["cp and sync"] = (["sh", "-c", 'cp "$0" "$1" && sync "$1"', file, others + "/synced"], file)
copy_to_each = 'for folder in "$@"; do cp "$0" "$folder/copy" && sync "$folder/copy" || exit 1; done'
for width in (4, 10):
    share = f"{scratch}/share{width}"
    shutil.copyfile(file, share)
    os.truncate(share, -(-size // (width - 2)))
    commands[f"cp and sync, {width} shares"] = (["sh", "-c", copy_to_each, share, *folders[width]], file)
for width in (4, 10):
    commands[f"par2create, as {width} clouds"] = (par2_words(width, f"{others}/par{width}", file), file)
    shares = ["-k", str(width - 2), "-m", str(width)]
    commands[f"zfec, {width} shares"] = (["zfec", "-q", "-f", *shares, "-d", others, "-p", f"zfec{width}", file], file)
absent = {words[0] for words, _ in commands.values() if not shutil.which(words[0])}
commands = {name: (words, given) for name, (words, given) in commands.items() if words[0] not in absent}
read = {}
peaks = {name: 0 for name in commands}


def seconds_of(name):
    """How many seconds a command takes. What else it used is kept."""
    used = used_by(name, *commands[name])
    read[name] = used.read
    peaks[name] = max(peaks[name], used.peak)
    return used.seconds


least = least_of_turns(runs, lambda number: commands, prepare, seconds_of)
print(f"{size} bytes, the least of {runs} runs in turn")
for word in sorted(absent):
    print(f"{word} isn't installed")
for name in commands:
    ratio = least[name] / least["sha256sum"]
    print(f"{name:44} {least[name] * 1000:8.1f} ms   {ratio:6.2f} x sha256sum   reads {read[name] / size:5.2f} x the file   peak {peaks[name] / 1024:5.0f} MiB")
PYTHON
