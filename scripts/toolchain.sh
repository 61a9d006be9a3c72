# Sourced, at the root of the repository, by the scripts that build programs with the Rattle toolchain. It sets
#   archive   the archive of the exported functions, which must be there
#   kit       the toolchain's folder; kit/toolchain has compiler, linker and the C library of x86-64 programs
#   emulator  what runs an x86-64 program; empty where this machine runs it itself
# and ends the script where something is missing.
# shellcheck shell=sh disable=SC2034
die() { echo "$(basename "$0"): $*" >&2; exit 1; }

archive=target/staticlib/libcavernlull.a
[ -e "$archive" ] || die "no $archive: first \`scripts/build-archive\`"

rt=$(command -v rt) || die "no \`rt\` on the path"
kit=$(dirname "$(dirname "$(readlink -f "$rt")")")
for tool in clang ld.lld llvm-ar; do [ -x "$kit/toolchain/bin/$tool" ] || die "no $tool in $kit/toolchain/bin"; done

emulator=''
if [ "$(uname -m)" != x86_64 ]; then
    emulator=$kit/toolchain/bin/qemu-x86_64
    [ -x "$emulator" ] || emulator=$(command -v qemu-x86_64) || die "no qemu-x86_64, in $kit/toolchain/bin or on the path"
fi
