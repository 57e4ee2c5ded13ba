#!/bin/sh
# Compiles the proved library once more, only for measuring:
#
#   bench/compile.sh [--no-jump-tables] MACHINE OUT.a
#
# Works from any directory, on an x86-64 machine. What is proved and delivered is
# the x86-64 archive, crates/am29332/out/libam29332.a, which is made anew on the
# way. MACHINE is x86_64, or another that the kit's compiler has code for, as
# aarch64, so that the library's speed there can be measured without an emulator.
# With --no-jump-tables a decision is made of comparisons.
#
# `rt lib` hands the library to the kit's compiler as one LLVM module. Here it
# runs in a kit of links to the true one, but for the compiler: a script that
# keeps the module and the compiler's words, and then compiles it as asked. The
# module is compiled once more, and for another machine native-shim.c with it,
# which says why.
set -eu
usage() { echo "usage: compile.sh [--no-jump-tables] MACHINE OUT.a" >&2; exit 2; }
fail() { echo "compile.sh: $*" >&2; exit 1; }
attribute=
if [ "${1-}" = --no-jump-tables ]; then
    attribute='"no-jump-tables"="true" '
    shift
fi
[ $# -eq 2 ] || usage
target=$1 out=$(readlink -f -- "$2")
here=$(cd -- "$(dirname -- "$0")" && pwd)
crate=$here/../crates/am29332
[ "$(uname -m)" = x86_64 ] || fail "the kit is for x86-64 machines alone, and this one is $(uname -m)"
command -v rt >/dev/null || fail "there is no rt on the PATH"
kit=$(dirname -- "$(rt doc)")
clang=$kit/toolchain/bin/clang
archiver=$kit/toolchain/bin/llvm-ar
"$clang" --print-targets | grep -q "^ *$(echo "$target" | tr _ -) " || fail "the kit's compiler has no code for $target"

work=$(mktemp -d)
trap 'rm -rf -- "$work"' EXIT
trap 'exit 1' HUP INT TERM

mkdir -p "$work/kit/bin" "$work/kit/toolchain/bin"
cat >"$work/kit/toolchain/bin/clang" <<END
#!/bin/sh
PATH=/usr/bin:/bin
for word in "\$@"; do
    case \$word in *.bc) cp -- "\$word" "$work/module.bc"; printf '%s\n' "\$@" >"$work/words" ;; esac
done
exec "$clang" "\$@"
END
chmod +x "$work/kit/toolchain/bin/clang"
# rt takes for its kit the folder that its own files are in, so these are no links
cp "$kit/bin/rt" "$kit"/bin/*.py "$work/kit/bin"
for folder in . bin toolchain toolchain/bin; do
    for file in "$kit/$folder"/*; do
        [ -e "$work/kit/$folder/${file##*/}" ] || ln -s "$file" "$work/kit/$folder"
    done
done

PATH=$work/kit/bin:$PATH "$here/../tools/build.sh" am29332 >"$work/said" 2>&1 ||
    { cat "$work/said" >&2; fail "tools/build.sh am29332 failed"; }
[ -s "$work/module.bc" ] || fail "rt lib handed no module to the compiler"

# as_text WORDS..: what the compiler makes of a module or of C, as text.
as_text() { "$clang" --target=x86_64-linux-gnu -O3 -S -emit-llvm "$@"; }

# object PART: PART.ll compiled by the words that the archive's module was.
object() (
    set -f
    IFS='
'
    words=
    for word in $(cat "$work/words"); do
        case $word in
        --target=*) word=--target=$target-unknown-linux-gnu ;;
        -march=*) [ "$target" = x86_64 ] || continue ;;
        module.bc) word=$work/$1.ll ;;
        module.o) word=$work/$1.o ;;
        esac
        words="$words$word
"
    done
    # shellcheck disable=SC2086 # one word a line
    "$clang" -Wno-override-module $words
)

as_text -Xclang -disable-llvm-passes -x ir "$work/module.bc" -o "$work/module.ll"
parts=module
if [ "$target" = x86_64 ]; then
    # Compiled as it stands it must be the delivered object, byte for byte.
    object module
    "$archiver" p "$crate/out/libam29332.a" | cmp -s - "$work/module.o" ||
        fail "compiled once more the module is not what rt lib made of it"
else
    # What names x86-64's processors goes, so that module and shim are compiled for
    # the processor that the C model is compiled for. So does the mark sret: x86-64
    # hands over the address of a struct's room as the first argument, and so does
    # the module; with the mark it would be no argument on that machine.
    as_text -nostdinc -isystem "$(cc -print-file-name=include)" \
        -isystem "/usr/include/$(cc -print-multiarch)" -isystem /usr/include \
        -std=c11 -Wall -Wextra -Werror -fPIC "$here/native-shim.c" -o "$work/shim.ll"
    parts="module shim"
    for part in $parts; do
        sed -i -e 's/ "target-[a-z]*"="[^"]*"//g' -e 's/ "tune-cpu"="[^"]*"//g' \
            -e 's/ sret([^)]*)//g' "$work/$part.ll"
    done
fi

sed -i -e "s/^attributes #[0-9]* = { /&$attribute/" "$work/module.ll"
rm -f -- "$out"
for part in $parts; do
    object "$part"
    "$archiver" rcs "$out" "$work/$part.o"
done
