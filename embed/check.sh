#!/bin/bash
# What the gate can't run: the C library from C, C++, Rust and Python. It builds and runs each example, compares their
# bytes with the program's, and looks for errors of memory and of threads.
#
#   embed/check.sh                     the library is proved and built first (`rt lib` in crates/terra_c), if it isn't
#                                      there, and so is the program (./terra)
#   TERRA_PROGRAM=FILE embed/check.sh  with this program in place of ./terra
#
# It wants Debian's gcc, g++, valgrind, rustc and cargo, python3 with numpy, cmake and pkg-config.
set -euo pipefail
cd "$(dirname "$0")"
HERE=$PWD
WARN="-Wall -Wextra -Werror -O2"
OUT=$HERE/build/check
PROGRAM=${TERRA_PROGRAM:-../terra}
mkdir -p "$OUT"
step() { printf '%s\n' "== $*"; }
same() { cmp "$1" "$2" || { echo "different: $1 $2" >&2; exit 1; }; }
trap 'echo "embed/check.sh: FAILED (line $LINENO)" >&2' ERR

step "the library"
if [ ! -e ../crates/terra_c/out/libterra_c.a ]; then
    (cd ../crates/terra_c && rt lib)
fi
make -s all
nm -g --defined-only build/libterra.a | awk '$2 == "T" && $3 ~ /^terra_/ {print $3}' | sort > "$OUT/exports"
grep -o 'terra_[a-z0-9_]*(' terra.h | tr -d '(' | grep -v '^terra_cell_side$' | sort -u > "$OUT/declared"
same "$OUT/exports" "$OUT/declared"

step "what the program writes"
WANT=$OUT/valley.obj
NORMALS=$OUT/valley_normals.obj
"$PROGRAM" run < ../examples/valley.jsonl > "$WANT"
sed 's/{"do":"shot"}/{"do":"shot","normals":true}/' ../examples/valley.jsonl | "$PROGRAM" run > "$NORMALS"
grep -q '^vn ' "$NORMALS"

step "C"
gcc -std=c99 $WARN -I. examples/valley.c build/libterra.a -o "$OUT/valley_c"
"$OUT/valley_c" > "$OUT/valley_c.obj"
same "$WANT" "$OUT/valley_c.obj"
"$OUT/valley_c" normals > "$OUT/valley_c.obj"
same "$NORMALS" "$OUT/valley_c.obj"
gcc -std=c11 $WARN -I. examples/misuse.c build/libterra.a -o "$OUT/misuse"
"$OUT/misuse"

step "C++"
g++ -std=c++17 $WARN -I. -Iexamples examples/valley.cpp build/libterra.a -o "$OUT/valley_cpp"
"$OUT/valley_cpp" > "$OUT/valley_cpp.obj"
same "$WANT" "$OUT/valley_cpp.obj"

step "Rust"
(cd rust && cargo run -q --offline --release --target-dir "$OUT/rust" --example valley) > "$OUT/valley_rust.obj"
same "$WANT" "$OUT/valley_rust.obj"

step "Python"
PYTHON=python3
"$PYTHON" -c 'import numpy' 2> "$OUT/numpy.log" || PYTHON=/usr/bin/python3
"$PYTHON" python/valley.py > "$OUT/valley_python.obj"
same "$WANT" "$OUT/valley_python.obj"

step "normals and picks"
# By hand from the rules: the six vertices of one solid point lie half a cell from it.
cat > "$OUT/surface" <<'END'
vn 0 0 -256
vn 0 -256 0
vn -256 0 0
vn 256 0 0
vn 0 256 0
vn 0 0 256
# pick 2048 2048 8.50000000 in triangle 4 of b0_0_0_0
# pick 2112 2048 8.25000000 in triangle 5 of b0_0_0_0
# pick 0 0 none
END
gcc -std=c99 $WARN -I. examples/surface.c build/libterra.a -o "$OUT/surface_c"
"$OUT/surface_c" > "$OUT/told"
same "$OUT/surface" "$OUT/told"
g++ -std=c++17 $WARN -I. examples/surface.cpp build/libterra.a -o "$OUT/surface_cpp"
"$OUT/surface_cpp" > "$OUT/told"
same "$OUT/surface" "$OUT/told"
(cd rust && cargo run -q --offline --release --target-dir "$OUT/rust" --example surface) > "$OUT/told"
same "$OUT/surface" "$OUT/told"
"$PYTHON" python/surface.py > "$OUT/told"
same "$OUT/surface" "$OUT/told"

step "the first programs of docs/embedding.md"
# The program below a heading: the first lines that are indented.
first() {
    awk -v head="### $1" '$0 == head { on = 1; next } !on || /^$/ && !told { next }
        /^    |^$/ { told = 1; sub(/^    /, ""); print; next } told { exit }' ../docs/embedding.md
}
FIRST=$OUT/first
mkdir -p "$FIRST/src"
first C > "$FIRST/first.c"
gcc $WARN -I. "$FIRST/first.c" build/libterra.a -o "$FIRST/first_c"
"$FIRST/first_c" > "$FIRST/want"
grep -q '^[1-9][0-9]* vertices, [1-9][0-9]* triangles$' "$FIRST/want"
first C++ > "$FIRST/first.cpp"
g++ -std=c++17 $WARN -I. "$FIRST/first.cpp" build/libterra.a -o "$FIRST/first_cpp"
"$FIRST/first_cpp" > "$FIRST/told"
same "$FIRST/want" "$FIRST/told"
first Rust > "$FIRST/src/main.rs"
printf '[package]\nname = "first"\nversion = "0.1.0"\nedition = "2021"\n\n[dependencies]\nterra = { path = "%s" }\n' \
    "$HERE/rust" > "$FIRST/Cargo.toml"
(cd "$FIRST" && cargo run -q --offline) > "$FIRST/told"
same "$FIRST/want" "$FIRST/told"
first Python > "$FIRST/first.py"
PYTHONPATH=python "$PYTHON" "$FIRST/first.py" > "$FIRST/told"
same "$FIRST/want" "$FIRST/told"

step "installed: pkg-config and CMake"
rm -rf "$OUT/root"
make -s install PREFIX="$OUT/root"
PKG_CONFIG_PATH=$OUT/root/lib/pkgconfig
export PKG_CONFIG_PATH
# shellcheck disable=SC2046
gcc -std=c99 $WARN -Iexamples $(pkg-config --cflags terra) examples/valley.c $(pkg-config --libs terra) -o "$OUT/valley_so"
LD_LIBRARY_PATH=$OUT/root/lib "$OUT/valley_so" > "$OUT/valley_so.obj"
same "$WANT" "$OUT/valley_so.obj"
cmake -S examples -B "$OUT/cmake" -DCMAKE_PREFIX_PATH="$OUT/root" -DCMAKE_BUILD_TYPE=Release > "$OUT/cmake.log"
cmake --build "$OUT/cmake" >> "$OUT/cmake.log"
"$OUT/cmake/valley" > "$OUT/valley_cmake.obj"
same "$WANT" "$OUT/valley_cmake.obj"

step "memory: no error and no leak, also where each allocation is refused in turn"
VALGRIND="valgrind -q --error-exitcode=99 --leak-check=full --show-leak-kinds=all"
$VALGRIND "$OUT/valley_c" > "$OUT/valley_valgrind.obj"
same "$WANT" "$OUT/valley_valgrind.obj"
$VALGRIND "$OUT/misuse"
$VALGRIND "$OUT/surface_c" > "$OUT/told"
same "$OUT/surface" "$OUT/told"
gcc -std=c99 $WARN -I. examples/refused.c ../crates/terra_c/out/libterra_c.a -o "$OUT/refused"
"$OUT/refused"
$VALGRIND "$OUT/refused"
gcc -std=c11 -g -fsanitize=address,undefined -I. examples/misuse.c build/libterra.a -o "$OUT/misuse_asan"
"$OUT/misuse_asan"

step "threads: four mesh while the world is edited"
g++ -std=c++17 $WARN -pthread -I. -Iexamples examples/threads.cpp build/libterra.a -o "$OUT/threads"
"$OUT/threads" 400 "$OUT/alone.obj" > "$OUT/threads.obj"
same "$OUT/alone.obj" "$OUT/threads.obj"
g++ -std=c++17 -g -O1 -pthread -fsanitize=thread -I. -Iexamples examples/threads.cpp build/libterra.a -o "$OUT/threads_tsan"
TSAN_OPTIONS=suppressions=tsan.supp setarch -R "$OUT/threads_tsan" 120 "$OUT/alone.obj" > "$OUT/threads.obj"
same "$OUT/alone.obj" "$OUT/threads.obj"
valgrind -q --fair-sched=yes --tool=helgrind --error-exitcode=99 "$OUT/threads" 24 "$OUT/alone.obj" > "$OUT/threads.obj"
same "$OUT/alone.obj" "$OUT/threads.obj"
valgrind -q --fair-sched=yes --error-exitcode=99 --leak-check=full "$OUT/threads" 24 "$OUT/alone.obj" > "$OUT/threads.obj"
same "$OUT/alone.obj" "$OUT/threads.obj"

step "speed"
gcc -std=c99 $WARN -I. examples/speed.c build/libterra.a -o "$OUT/speed"
"$OUT/speed"

echo "embed/check.sh: all passed"
