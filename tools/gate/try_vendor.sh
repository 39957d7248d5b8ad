#!/usr/bin/env bash
# Puts the libraries into a new repository by vendor.sh, beside a program of a few lines, and has `rt try` run it, with no proof. Then it puts
# them there again, and over what is not its own; and the client of crates/example_client, which `rt try` runs too. A proof of it there would
# take that of the libraries. The last line is 'N passed, M failed'.
#
#     tools/gate/try_vendor.sh
set -euo pipefail
case "${1-}" in -h | --help) sed -n '2,/^set/{/^set/d;s/^# \{0,1\}//;p}' "$0" && exit 0 ;; esac
cd "$(dirname "$0")/../.."
dest=$(mktemp -d)
trap 'rm -rf "$dest"' EXIT
passed=0 failed=0

# Counts a test: what it shows, and the command that ends with 0 where it is so.
holds() {
    local what=$1
    shift
    if "$@" >"$dest/said" 2>&1; then
        passed=$((passed + 1))
    else
        failed=$((failed + 1))
        echo "FAILED: $what"
        cat "$dest/said"
    fi
}

# The crates that the new repository lists, but for the user's.
listed() {
    sed -n 's/^\([a-z0-9_]*\):.*/\1/p' "$dest/crates.txt" | grep -vx user
}

are_whole() {
    local name
    [ "$(listed | wc -l)" -gt 1 ] || return 1
    for name in $(listed); do diff -r -x out -x mutants -x 'must-*' "crates/$name" "$dest/crates/$name" || return 1; done
    [ -z "$(find "$dest" -name mutants -o -name 'must-*')" ]
}

# Whether each crate's line stands behind those of the crates that it names and that are there.
stand_in_order() {
    awk -F: '/^[a-z]/ { count = split($2, parts, " ")
        for (at = 1; at <= count; at++) if (!(parts[at] in seen) && system("test -d " root "/" parts[at]) == 0) exit 1
        seen[$1] = 1 }' root="$(dirname "$1")/crates" "$1"
}

# What the program has to print: the Open, as the canonical spelling has it.
wanted() {
    python3 -c '
import sys
sys.path.insert(0, "tools")
from amqp.canonical import composite, string, uint, ushort
print("out 02000000" + composite(0x10, [string("user"), b"\x40", uint(65536), ushort(255)]).hex())'
}

runs() {
    (cd "$dest/crates/user" && rt try </dev/null) >"$dest/printed" && diff <(wanted) "$dest/printed"
}

# The client that is put there, over what a server is recorded to send: it sends what it has to, and says of each message that it was accepted.
client_runs() {
    local crate=$1/crates/example_client words
    mapfile -t words <"$crate/args"
    (cd "$crate" && rt try -- "${words[@]}" <stdin) >"$dest/sent" 2>"$dest/came" || { cat "$dest/came" && return 1; }
    cmp "$crate/stdout" "$dest/sent" && grep -x 'Ended .*: 4 sent, 4 accepted' "$dest/came"
}

mkdir -p "$dest/crates/user/src"
echo "user: fe2o3_amqp anyhow" >"$dest/crates.txt"
cat >"$dest/crates/user/src/main.rt" <<'END'
//! A program of another repository: an engine is asked for its Open, and the bytes are printed.
#![tactic(auto)]

use fe2o3_amqp::{Answer, ConnectionState, Engine, Input, Open, ReplayRelay, out_line};
use std::alloc::{AllocError, Global};
use std::collections::VecDeque;

fn main(rt: HostRuntime) -> anyhow::Result<()> {
    let alloc = rt.alloc();
    let state = ConnectionState::HeaderExchange;
    let mut engine: Engine<ReplayRelay> = Engine::new(alloc, state, open(alloc)?);
    let mut inputs = VecDeque::new(alloc);
    let mut answers = Vec::new(alloc);
    if inputs.push_back(Input::Open).is_err() || engine.run(&mut inputs, &mut answers).is_err() {
        return Err(AllocError.into());
    }
    for answer in answers.iter() {
        if let Answer::Out(pieces) = answer {
            for piece in pieces.iter() {
                let line = out_line(alloc, piece)?;
                println!(rt; "{line}")?;
            }
        }
    }
    Ok(())
}

fn open(alloc: Global) -> Result<Open, AllocError> {
    let mut open = Open::new(String::from_str(alloc, "user")?);
    open.max_frame_size = 65536;
    open.channel_max = 255;
    Ok(open)
}
END
holds "the libraries are put there" tools/vendor.sh "$dest"
holds "each is whole" are_whole
holds "the program runs, and prints the Open" runs
mkdir "$dest/crates/amqp_types/out"
touch "$dest/crates/amqp_types/out/kept" "$dest/crates/amqp_types/src/gone.rt"
cp "$dest/crates.txt" "$dest/lines"
holds "they are put there again" tools/vendor.sh "$dest"
holds "what is gone here goes there too, and each is whole" are_whole
holds "what rt keeps stays" test -e "$dest/crates/amqp_types/out/kept"
holds "the lines are the same" diff "$dest/lines" "$dest/crates.txt"
holds "HANDLES and the licences are there" diff <(cat HANDLES NOTICE LICENSE-*) <(cd "$dest" && cat HANDLES licences-amqp/NOTICE licences-amqp/LICENSE-*)
rm -r "$dest/crates/amqp_types" && ln -s "$PWD/crates/amqp_types" "$dest/crates/amqp_types"
holds "a symbolic link is refused" eval '! tools/vendor.sh "$dest"'
rm "$dest/crates/amqp_types" "$dest/crates.txt"
holds "a folder of somebody else's is refused" eval '! tools/vendor.sh "$dest"'
holds "and so is this repository" eval '! tools/vendor.sh .'
holds "nothing of this repository is gone" test -e crates/amqp_types/src/lib.rt
links=$dest/links
holds "links and a transport are put there, with all that they stand on" tools/vendor.sh "$links" amqp_endpoints amqp_transport
holds "these are among them" ls -d "$links"/crates/{amqp_endpoints,amqp_transport,amqp_driver,amqp_links,amqp_events,amqp_sasl,amqp_idle,fe2o3_amqp}
holds "each has a line behind those that it stands on" stand_in_order "$links/crates.txt"
holds "a client is put there too" tools/vendor.sh "$links" example_client
holds "its line stands behind theirs" stand_in_order "$links/crates.txt"
holds "it runs unproved, sends what it has to, and says what came" client_runs "$links"
holds "a crate that is none is refused" eval '! tools/vendor.sh "$dest/none" amqp_nothing'
echo "$passed passed, $failed failed"
[ "$failed" = 0 ]
