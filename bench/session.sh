#!/usr/bin/env bash
# Runs the session that README.md prints, or another page, in a temporary folder with the built program, and compares what comes
# with what is printed there. The session is the page's blocks of the kind "console": lines that begin with "$ " are commands, and
# beneath each stands what it prints.
set -u
cd "$(dirname "$0")/.." || exit 1
program=$PWD/crates/nccloud/out/nccloud
page=${1:-README.md}
[ -x "$program" ] || { echo "session: $program isn't there: make demo builds it" >&2; exit 1; }
scratch=$(mktemp -d) || exit 1
trap 'rm -rf "$scratch"' EXIT
mkdir "$scratch/bin" "$scratch/home"
ln -s "$program" "$scratch/bin/nccloud"

sed -n '/^```console$/,/^```$/{/^```/!p}' "$page" >"$scratch/printed"
grep -q '^\$ nccloud ' "$scratch/printed" || { echo "session: $page prints no session" >&2; exit 1; }

# The commands as a script, which says each before it runs it, and tells the status of one that doesn't end with 0.
while IFS= read -r line; do
    case $line in
        '$ '*) printf 'printf "%%s\\n" %q\n%s\ntell $?\n' "$line" "${line#\$ }" ;;
    esac
done <"$scratch/printed" >"$scratch/commands"

(
    cd "$scratch/home" || exit 1
    PATH=$scratch/bin:$PATH
    tell() { [ "$1" = 0 ] || echo "(status $1)"; }
    . "$scratch/commands"
) >"$scratch/ran" 2>&1 </dev/null

if diff --label "$page" --label "what came" -u "$scratch/printed" "$scratch/ran"; then
    echo "session: $(grep -c '^\$ ' "$scratch/printed") commands of $page print what stands there"
else
    echo "session: $page prints something else than what came" >&2
    exit 1
fi
