#!/usr/bin/env bash
# Puts library crates into a Rattle repository of one's own: those that are named, or fe2o3_amqp, and those that these stand on, as crates.txt has them.
#
#     tools/vendor.sh DEST             fe2o3_amqp: the engine
#     tools/vendor.sh DEST CRATE ..    as amqp_transport and amqp_endpoints: a reader and a writer around a stream, and links
#     tools/vendor.sh DEST example_client   a client to copy, with both of these and all else that it stands on
#
# Each crate's folder is copied to DEST/crates/NAME (DEST/NAME where DEST has a crates.txt and no folder crates/), its line is put into
# DEST/crates.txt, the licences and NOTICE go into DEST/licences-amqp, and HANDLES is written where there is none. Copied, since the toolchain
# refuses a symbolic link. Left out are out/, which rt makes anew in its place; and mutants/, must-fail/ and must-not-compile/, the wrong bodies of
# this repository's gate, which only its tools can try. Run again, it updates: what is gone here goes there too, and what rt keeps in out/ stays.
# A folder of such a name that it did not make is left as it is, and the status is 1.
set -euo pipefail
root=$(cd "$(dirname "$0")/.." && pwd -P)
tops=fe2o3_amqp
mark="# AMQP 1.0, proved: put here by tools/vendor.sh of that repository, under the licences in licences-amqp/"

fail() {
    echo "vendor: $*" >&2
    exit 1
}

# The crates of the repository that these stand on, and themselves after them: each line of crates.txt is NAME: DEP ..
needed() {
    awk -v tops="$tops" -F: '
        /^[a-z]/ { line[$1] = $2 }
        function visit(name, parts, count, at) {
            if (!(name in line) || name in seen) return
            seen[name] = 1
            count = split(line[name], parts, " ")
            for (at = 1; at <= count; at++) visit(parts[at])
            print name
        }
        END { count = split(tops, top, " "); for (at = 1; at <= count; at++) visit(top[at]) }' "$root/crates.txt"
}

# Copies a crate, and takes away first what an earlier copy left, but for out/.
copy() {
    mkdir -p "$2"
    find "$2" -mindepth 1 -maxdepth 1 ! -name out -exec rm -rf {} +
    tar -C "$1" --anchored --exclude=./out --exclude=./mutants --exclude=./must-fail --exclude=./must-not-compile -cf - . | tar -C "$2" --no-same-owner -xf -
}

# The lines of DEST/crates.txt that are its own, and after them those of the crates.
merged() {
    local pattern
    pattern="^(${names//$'\n'/|})[ :]"
    if [ -f "$1" ]; then
        awk -v mark="$mark" -v ours="$pattern" '$0 != mark && $0 !~ ours' "$1"
    fi
    echo "$mark"
    for name in $names; do grep "^$name:" "$root/crates.txt"; done
}

case "${1-}" in
-h | --help) sed -n '2,/^set/{/^set/d;s/^# \{0,1\}//;p}' "$0" && exit 0 ;;
"" | -*) fail "usage: tools/vendor.sh DEST [CRATE ..]" ;;
esac
[ $# = 1 ] || tops=${*:2}
for name in $tops; do
    grep -q "^$name:" "$root/crates.txt" || fail "$root/crates.txt has no line of a library for $name"
done
names=$(needed)
mkdir -p "$1"
dest=$(cd "$1" && pwd -P)
[ "$dest" != "$root" ] || fail "$dest is this repository itself"
folder=$dest/crates
[ -d "$folder" ] || [ ! -e "$dest/crates.txt" ] || folder=$dest
for name in $names; do
    [ ! -L "$folder/$name" ] || fail "$folder/$name is a symbolic link, which the toolchain refuses: remove it first"
    [ ! -e "$folder/$name" ] || grep -qsxF "$mark" "$dest/crates.txt" || fail "$folder/$name is there, and not by this tool: remove it first"
done
for name in $names; do copy "$root/crates/$name" "$folder/$name"; done
mkdir -p "$dest/licences-amqp"
cp "$root/LICENSE-APACHE" "$root/LICENSE-MIT" "$root/NOTICE" "$dest/licences-amqp/"
[ -e "$dest/HANDLES" ] || cp "$root/HANDLES" "$dest/HANDLES"
lines=$(merged "$dest/crates.txt")
echo "$lines" >"$dest/crates.txt"
echo "$folder: $(echo "$names" | wc -l) crates, made with $(awk '$1 == "kit" { print $2 }' "$root/TOOLCHAIN"):" $names
