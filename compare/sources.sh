# Where the ported module and the static library are, and cargo with both. Read by scripts that stand at the root of the repository.
sources=$(realpath -m "${SOURCES:-../shared/docs}")
archive=$(realpath -m "${SORBILGAN_LIB:-target/staticlib}")

# cargo_here ARGUMENTS..: without the module or without cargo it says so and ends the script, which has then nothing to do
cargo_here() {
    if [ ! -r "$sources/src--impl--rust--src--formatting.rs.txt" ]; then
        echo "compare: the ported module is not in $sources, nothing is compared (SOURCES names another folder)"
        exit 0
    fi
    if ! command -v cargo >/dev/null; then
        echo "compare: there is no cargo to build the ported module with, nothing is compared"
        exit 0
    fi
    SOURCES=$sources SORBILGAN_LIB=$archive cargo "$@" --quiet --release --offline
}

# archive_here: without the library it ends the script as a failure
archive_here() {
    if [ ! -r "$archive/libsorbilgan.a" ]; then
        echo "compare: there is no libsorbilgan.a in $archive (SORBILGAN_LIB names another folder)" >&2
        exit 1
    fi
}
