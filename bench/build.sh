# Builds the bench into out/, over the archive; for the scripts beside it, which name their folder in BENCH.
OUT=$BENCH/out
# The kit's heap, on which the archive stands.
HEAP=$(dirname "$(rt doc)")/c
mkdir -p "$OUT"
if [ -z "${ARCHIVE:-}" ]; then
    (cd "$BENCH/../crates/mysql_params_c" && rt lib >&2)
    ARCHIVE=$BENCH/../crates/mysql_params_c/out/libmysql_params_c.a
fi
# Each function begins at a multiple of 64, so that its loops lie alike wherever linking puts it.
objcopy --set-section-alignment '.text*=64' "$ARCHIVE" "$OUT/libmysql_params_c.a"
compile() {
    rustc -O -C codegen-units=1 --edition 2024 "$@"
}
compile_bench() {
    compile --check-cfg 'cfg(upstream)' --crate-name bench \
        -L "$OUT" -L "$HEAP" -l static=libc_c --extern plain="$OUT/libplain.rlib" \
        "$@" -o "$OUT/bench" "$BENCH/driver/main.rs"
}
compile -C llvm-args=-align-loops=64 --crate-type lib --crate-name plain \
    -o "$OUT/libplain.rlib" "$BENCH/plain/lib.rs"
if [ -n "${MYSQL_COMMON_NAMED_PARAMS:-}" ]; then
    compile -C llvm-args=-align-loops=64 --crate-type lib --crate-name upstream --cap-lints allow \
        -o "$OUT/libupstream.rlib" "$MYSQL_COMMON_NAMED_PARAMS"
    compile_bench --cfg upstream --extern upstream="$OUT/libupstream.rlib"
else
    compile_bench
fi
