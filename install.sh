#!/bin/sh
# Builds the programs `route`, `check` and `house`, installs them, routes the example board, checks its layout, and writes its fixed text.
#
#     ./install.sh [PREFIX]     installs into PREFIX/bin; without PREFIX into bin/ of this folder
#
# It needs the Rattle toolchain's command `rt`. Only a proved program is built, so this proves every function that they use first; that
# takes some minutes on a fresh machine. The crate of `check` is check_layout: the toolchain has a library named check. That of `house` is
# house_job: the crate house has the definitions of the fixed text.
set -eu
here=$(cd "$(dirname "$0")" && pwd)
prefix=${1:-$here}
mkdir -p "$prefix/bin"
prefix=$(cd "$prefix" && pwd)
cd "$here"
folder=$(mktemp -d)
trap 'rm -rf "$folder"' EXIT
for crate in route check_layout house_job; do
    (cd "crates/$crate" && rt run < "$here/examples/board.job" > /dev/null) 2> "$folder/log" || { cat "$folder/log" >&2; exit 1; }
done
cp crates/route/out/route "$prefix/bin/route"
cp crates/check_layout/out/check_layout "$prefix/bin/check"
cp crates/house_job/out/house_job "$prefix/bin/house"
echo "installed $prefix/bin/route, $prefix/bin/check and $prefix/bin/house"
echo "the layout of the example board, examples/board.job, the verdict on it, and the board's fixed text:"
cp examples/board.job "$folder/board.job"
"$prefix/bin/route" < examples/board.job | tee "$folder/board.lay"
(cd "$folder" && "$prefix/bin/check")
"$prefix/bin/house" < examples/board.job
