#!/usr/bin/env bash
# Proves and builds the program, and runs a script on it in an empty folder: examples/run.sh [SCRIPT], and
# examples/first.aria where none is given. What the prover says goes to standard error.
set -eu
top=$(cd "$(dirname "${BASH_SOURCE[0]}")/.." && pwd)
script=$(realpath "${1:-$top/examples/first.aria}")

rt=$(command -v rt) || rt=/opt/rattle/bin/rt
# Once it is built the program is run in the crate's folder. Without words it makes no file there, and ends with 2.
(cd "$top/crates/aria" && "$rt" run < /dev/null) || [[ $? -eq 2 ]]

room=$(mktemp -d)
trap 'rm -rf "$room"' EXIT
cd "$room"
"$top/crates/aria/out/aria" run < "$script"
