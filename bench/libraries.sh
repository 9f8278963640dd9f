# What run.sh and fuzz.sh share; sourced, not run, with the folder of the second router in $second. It goes to the repository's folder and
# builds the static library of the crate `exports` (in crates/exports/out) and, below target/, the Rust functions over it, and the second router as a library with the
# level of bench/level in a constant (bench/cases.sh says what the level is).
cd "$(dirname "$0")/.."
mkdir -p target/bench
(cd crates/exports && rt lib) > target/bench/staticlib.log 2>&1 || { cat target/bench/staticlib.log >&2; exit 1; }
rustc -O --edition 2021 --crate-type rlib --crate-name hankuribo -L crates/exports/out -o target/bench/libhankuribo.rlib bindings/rust/hankuribo.rs
{
    echo "pub const LEVEL: usize = $(cat bench/level);"
    for source in "$second"/src/*.rs; do
        module=$(basename "$source" .rs)
        case $module in
            main | selftest | selfmore) continue ;;
        esac
        echo "#[path = \"$source\"] pub mod $module;"
    done
} > target/bench/second_router.rs
rustc -O -A warnings --crate-type rlib --crate-name second_router -o target/bench/libsecond_router.rlib target/bench/second_router.rs

# compiles bench/$1.rs over both libraries, to target/bench/$2
build() {
    rustc -O --edition 2021 -o "target/bench/$2" "bench/$1.rs" --extern hankuribo=target/bench/libhankuribo.rlib \
        --extern second_router=target/bench/libsecond_router.rlib -L crates/exports/out
}
