# cross.sh: for building programs for x86-64 on another machine. bindings/run and bench/run source it.

# Whether a rustc compiles for x86-64: it has Rust's standard library for it, of its own version. Use: compiles RUSTC [OPTION..]
compiles() {
    tried=$(mktemp -d) || exit 2
    echo | "$@" --target x86_64-unknown-linux-gnu --crate-type rlib --crate-name tried --emit metadata --out-dir "$tried" - \
        >/dev/null 2>&1
    status=$?
    rm -rf "$tried"
    return $status
}

# Sets rustc to RUSTC or, where that is not set, to the first that compiles of the path's rustc and Debian's. Status 1: none does.
# Use: pick_rustc [OPTION..]
pick_rustc() {
    for rustc in ${RUSTC:-rustc /usr/bin/rustc}; do
        command -v "$rustc" >/dev/null && compiles "$rustc" "$@" && return
    done
    rustc=${RUSTC:-rustc}
    return 1
}

# Debian's libm.a of the cross packages is a script for the linker, and names its files where x86-64 itself has them, which is
# nowhere here. Writes one that names them where they are, into a folder to be given to the linker, which looks there first.
# Use: mend_libm COMPILER FOLDER
mend_libm() {
    mkdir -p "$2" || exit 2
    libm=$("$1" -print-file-name=libm.a)
    grep -q '^GROUP' "$libm" || return 0
    sed "/^GROUP/s|[^ (]*/\(lib[^/ ]*\)|$(dirname "$libm")/\1|g" "$libm" >"$2/libm.a" || exit 2
}
