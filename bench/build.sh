# Sourced by run and fuzz: compiles the program named into target/bench/, linked with the library.
command -v g++ > /dev/null || { apt-get update && apt-get install -y g++; }
cd "$(dirname "${BASH_SOURCE[0]}")/.."
mkdir -p target/bench
flags=(-std=c++17 -O3 -march=native -Wall -Wextra)

(cd crates/endless_c && rt lib)
library=(crates/endless_c/out/libendless_c.a)

compile() {
  g++ "${flags[@]}" "bench/$1.cpp" bench/solvers.cpp bench/check.cpp bench/families.cpp bench/moves.cpp bench/parts.cpp "${library[@]}" -o "target/bench/$1"
}
