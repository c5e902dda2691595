#!/bin/sh
# Two misuses that the build refuses, each by the compiler's error for a use of a moved value: a source that was given to a
# unit is read beside it, and a closed unit is stepped. An edit of tools/misuse is a file, a line and what stands in its place.
# Each is made in a copy of the repository, which the build accepts before the edit. `rt try` compiles and runs the program
# with the libraries that it uses, and does not prove it.
set -eu
top=$(cd "$(dirname "$0")/.." && pwd)
copy=$(mktemp -d)
trap 'rm -rf "$copy"' EXIT
mkdir "$copy/crates"
cp "$top/crates.txt" "$copy"/
# the sources alone: what was proved of them plays no part here
(cd "$top/crates" && find . -name out -prune -o -type f -print | tar cf - -T -) | (cd "$copy/crates" && tar xf -)
cd "$copy/crates/tally"

if ! rt try <stdin >../../log 2>&1; then
    cat ../../log
    echo "misuse: the unedited copy is not accepted"
    exit 1
fi
echo "misuse: the unedited copy is accepted"
cd "$copy"

field() { sed -n "s/^$1: //p" "$2"; }

for edit in "$top"/tools/misuse/*.edit; do
    name=$(basename "$edit" .edit)
    file=$(field file "$edit")
    field old "$edit" >old
    field new "$edit" >new
    if [ "$(grep -cxF -f old "$file")" != 1 ]; then
        echo "misuse: $name: its line does not stand once in $file"
        exit 1
    fi
    cp "$file" kept
    line=$(grep -nxF -f old "$file" | cut -d: -f1)
    { head -n $((line - 1)) kept; cat new; tail -n +$((line + 1)) kept; } >"$file"
    if (cd crates/tally && rt try <stdin >../../log 2>&1); then
        echo "misuse: $name: NOT refused"
        exit 1
    fi
    if ! grep -q 'error\[borrow-e0382\]' log; then
        cat log
        echo "misuse: $name: refused, but not for a use of a moved value"
        exit 1
    fi
    echo "misuse: $name: refused, $(grep -m1 -o 'error\[borrow-e0382\][^:]*: [^:]*' log)"
    cp kept "$file"
done
