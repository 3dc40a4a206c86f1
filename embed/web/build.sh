#!/bin/bash
# Makes the page that digs: the folder embed/build/web, which any server can serve.
#
#   embed/web/build.sh
#   python3 -m http.server --bind 127.0.0.1 --directory embed/build/web 8000
#
# The library is proved and built first (`rt lib` in crates/terra_c), if it isn't there. It wants the Rattle kit on the
# path, and Debian's binaryen and libjs-three.
set -euo pipefail
cd "$(dirname "$0")"
MOST_BYTES=500000
THREE=/usr/share/javascript/three/build/three.module.js
ENGINE=../../crates/terra_c/out/libterra_c.a
WORK=$PWD/../build/web-engine
SITE=$PWD/../build/web
WASM="--target=wasm64-unknown-unknown -O3 -mbulk-memory -mbulk-memory-opt -msign-ext -mmutable-globals"
LAYOUT=e-m:e-p:64:64-p10:8:8-p20:8:8-i64:64-i128:128-n32:64-S128-ni:1:10:20
stop() { echo "embed/web/build.sh: $*" >&2; exit 1; }

RT=$(command -v rt) || stop "it wants the Rattle kit on the path (rt)"
command -v wasm-opt > /dev/null || stop "it wants Debian's binaryen (wasm-opt)"
[ -e "$THREE" ] || stop "it wants Debian's libjs-three ($THREE)"
CLANG=$(dirname "$(dirname "$(readlink -f "$RT")")")/toolchain/bin/clang
mkdir -p "$WORK" "$SITE"
if [ ! -e "$ENGINE" ]; then
    (cd ../../crates/terra_c && rt lib)
fi
if [ ! "$WORK/module.bc" -nt "$ENGINE" ]; then
    rm -f "$WORK/module.bc"
    python3 engine/module.py "$WORK/module.bc"
fi

# The module names the processor and its layout of memory: both become those of WebAssembly with addresses of 64 bits.
"$CLANG" --target=x86_64-unknown-linux-gnu -x ir "$WORK/module.bc" -S -emit-llvm -O0 -Xclang -disable-llvm-passes \
    -o "$WORK/x86-64.ll"
sed -e 's/^target datalayout = .*/target datalayout = "'$LAYOUT'"/' \
    -e 's/^target triple = .*/target triple = "wasm64-unknown-unknown"/' \
    -e 's/ "\(probe-stack\|stack-probe-size\|target-cpu\)"="[^"]*"//g' "$WORK/x86-64.ll" > "$WORK/wasm64.ll"
if grep -o '@llvm\.x86\.[a-z0-9.]*' "$WORK/wasm64.ll"; then
    stop "the module has instructions of x86-64 alone"
fi
# shellcheck disable=SC2086
"$CLANG" $WASM -x ir "$WORK/wasm64.ll" -c -o "$WORK/engine.o"
for part in heap wide; do
    # shellcheck disable=SC2086
    "$CLANG" $WASM -std=c11 -Wall -Wextra -Werror -ffreestanding -c engine/$part.c -o "$WORK/$part.o"
done

# What the page calls is exported. wasm-opt then makes addresses of 32 bits, which every browser has.
ln -sf "$CLANG" "$WORK/wasm-ld"
EXPORTS=$(grep -o 'terra_[a-z0-9_]*' page/engine.js | sort -u | sed 's/^/--export=/')
# shellcheck disable=SC2086
"$WORK/wasm-ld" -mwasm64 --no-entry $EXPORTS --import-memory --gc-sections --strip-all -z stack-size=1048576 \
    --stack-first -o "$WORK/terra64.wasm" "$WORK/engine.o" "$WORK/heap.o" "$WORK/wide.o"
wasm-opt --enable-memory64 --enable-bulk-memory --enable-sign-ext --enable-mutable-globals --memory64-lowering \
    "$WORK/terra64.wasm" -o "$WORK/terra.wasm"
BYTES=$(stat -c %s "$WORK/terra.wasm")
[ "$BYTES" -lt $MOST_BYTES ] || stop "the module has $BYTES bytes, and $MOST_BYTES are too many"

cp page/* "$THREE" "$WORK/terra.wasm" "$SITE"
echo "embed/web/build.sh: embed/build/web is made; the engine has $BYTES bytes"
