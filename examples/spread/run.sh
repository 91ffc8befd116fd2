#!/bin/sh
# Six tenants in one run, and the same cut by tenant into six runs side by side: the files and the lines of the report are the same, since
# those of a tenant hang on nothing but its own chain and capture. So a chain set may be spread over machines by any scheduler. Each
# tenant's files are also those of the example that its chain and its capture come from.
top=$(cd "$(dirname "$0")/../.." && pwd) || exit 1
cd "$top" || exit 1
out=$(mktemp -d) || exit 1
trap 'rm -rf "$out"' EXIT
mkdir "$out/one" "$out/many" "$out/parts" "$out/lines" "$out/wanted" || exit 1

./bricks inline examples/spread/chains.toml "$out/one" >"$out/report" || exit 1
examples/spread/cut_tenants.py examples/spread/chains.toml "$out/parts" || exit 1
ls "$out/parts" | xargs -P 4 -I '{}' sh -c './bricks inline "$0/parts/$1" "$0/many" >"$0/lines/$1"' "$out" '{}' || exit 1
cat "$out"/lines/*.toml | diff "$out/report" - || exit 1
diff -r "$out/one" "$out/many" || exit 1

for name in firewall router translation balance windows groups; do
    for file in examples/$name/expected/a.*; do
        cp "$file" "$out/wanted/$name.${file##*/a.}" || exit 1
    done
done
diff -r "$out/wanted" "$out/one" || exit 1
echo "six tenants in one run and in six: the same"
