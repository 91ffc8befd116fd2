#!/bin/sh
# Applies each misuse in this folder to a copy of the repository, and wants the compiler to refuse it by the error that it names.
# A misuse is a text with the lines `crate:`, `file:`, `old:`, `new:` and `want:`; `old` stands once in the file.
top=$(cd "$(dirname "$0")/.." && pwd) || exit 1
copy=$(mktemp -d) || exit 1
trap 'rm -rf "$copy"' EXIT
cp "$top/crates.txt" "$top/HANDLES" "$copy/" || exit 1
(cd "$top" && tar cf - --exclude=out crates) | (cd "$copy" && tar xf -) || exit 1

# the text behind a key of a misuse
field() {
    sed -n "s/^$1: //p" "$2"
}

passed=0
failed=0
for misuse in "$top"/misuse/*.misuse; do
    name=$(basename "$misuse" .misuse)
    crate=$(field crate "$misuse")
    file="$copy/crates/$crate/$(field file "$misuse")"
    cp "$file" "$copy/kept" || exit 1
    OLD=$(field old "$misuse") NEW=$(field new "$misuse") awk '
        $0 == ENVIRON["OLD"] { print ENVIRON["NEW"]; count++; next }
        { print }
        END { exit count != 1 }' "$copy/kept" >"$file" || { echo "misuse $name: its old text does not stand once in $file"; exit 1; }
    (cd "$copy/crates/$crate" && rt check) >"$copy/log" 2>&1
    status=$?
    if [ "$status" -ne 0 ] && grep -qF "$(field want "$misuse")" "$copy/log"; then
        echo "misuse $name: refused, as it must be"
        passed=$((passed + 1))
    else
        echo "misuse $name: NOT REFUSED by $(field want "$misuse"); status $status"
        tail -n 20 "$copy/log"
        failed=$((failed + 1))
    fi
    cp "$copy/kept" "$file" || exit 1
done
echo "misuses: $passed refused, $failed not refused"
[ "$failed" -eq 0 ]
