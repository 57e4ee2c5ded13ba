#!/bin/sh
# x86run.sh PROGRAM [ARGUMENTS]: runs a program that rt built, crates/NAME/out/NAME. Programs are x86-64 code, and the kit is for such machines alone: it
# brings no emulator for another one, where this says so and ends with status 2.
set -eu
[ $# -gt 0 ] || { echo "usage: x86run.sh PROGRAM [ARGUMENTS]" >&2; exit 2; }
machine=$(uname -m)
[ "$machine" = x86_64 ] || { echo "x86run.sh: $1 is x86-64 code, and the kit brings no emulator for $machine" >&2; exit 2; }
exec "$@"
