#!/usr/bin/env bash
# Builds a program without its proofs that is as fast as the proved one: bench/unproved.sh OUT [WORD..]
#
# The program is `voxdag` of this checkout; CRATE names another folder of crates/. `rt try` runs it once with the words, by a
# kit in which every file is a link but the compiler, which keeps the module that it is given. Of that module the tests of sums and
# indices are dropped, and what is left is compiled and linked as a proved program is. Nothing is proved of it: it is there to
# be timed, beside a program built in the same way. The sources' hints on inlining, which `rt try` drops, are put in again.
set -eu
here=$(cd "$(dirname "$0")" && pwd)
root=${ROOT:-$(dirname "$here")}
out=$(realpath -m "$1")
shift
kit=$(dirname "$(rt doc)")
work=$(mktemp -d)
trap 'rm -rf "$work"' EXIT

# A kit of links, with a compiler of our own.
mkdir -p "$work/kit/bin" "$work/kit/toolchain/bin" "$work/kept"
for file in "$kit"/*; do ln -s "$file" "$work/kit/" 2> /dev/null || true; done
for file in "$kit"/bin/*; do ln -s "$file" "$work/kit/bin/"; done
ln -s "$kit/toolchain/lib" "$work/kit/toolchain/lib"
for file in "$kit"/toolchain/bin/*; do ln -s "$file" "$work/kit/toolchain/bin/"; done
rm "$work/kit/bin/rt" "$work/kit/bin/rtlib.py" "$work/kit/toolchain/bin/clang"
cp "$kit/bin/rt" "$kit/bin/rtlib.py" "$work/kit/bin/"
cat > "$work/kit/toolchain/bin/clang" << END
#!/usr/bin/env bash
for word in "\$@"; do case "\$word" in *.bc) cp "\$word" "\$(mktemp "$work/kept/XXXXXX.bc")" ;; esac; done
exec "$kit/toolchain/bin/clang" "\$@"
END
chmod +x "$work/kit/toolchain/bin/clang"

cd "$root/crates/${CRATE:-voxdag}"
"$work/kit/bin/rt" try -- "$@" > "$work/said" 2>&1 || true
module=$(ls -S "$work"/kept/*.bc 2> /dev/null | head -n 1)
[ -n "$module" ] || { tail -n 20 "$work/said" >&2; exit 1; }

clang="$kit/toolchain/bin/clang --target=x86_64-unknown-linux-gnu --no-default-config"
$clang -S -emit-llvm -Xclang -disable-llvm-passes -x ir "$module" -o "$work/tested.ll"
awk '/^(define|declare)/ { print; next }
    /rattle-llvm-checks::/ || /llvm\.trap/ || (/memset/ && /i8 -86/) { next }
    { print }' "$work/tested.ll" | python3 "$here/hints.py" "$root/crates" > "$work/plain.ll"
$clang --sysroot="$kit/toolchain" -march=x86-64-v2 -mllvm -no-trap-after-noreturn -ffunction-sections -fdata-sections \
    -mllvm -trap-unreachable -O3 -fPIE -c -x ir "$work/plain.ll" -o "$work/plain.o"
"$kit/bin/rattle-link" --target x86_64-unknown-linux-gnu --toolchain "$kit/toolchain" -o "$out" "$work/plain.o" \
    "$kit/c/liblibc_c.a" "$kit/c/libos_c.a"
