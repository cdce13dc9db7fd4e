# geoconvert.sh: looks for the source of geoconvert 1.0.2, the Rust, and builds it unchanged. compare/run and bench/run source it.
# They set: here, the folder compare/; source, the folder of the Rust's source; rustc; optimise, rustc's option for that; target,
# rustc's options for a machine that is not this one, or nothing. They have `say` and `die`, and stand in a scratch folder.
sources='src/lib.rs src/constants.rs src/utility.rs src/coords/mgrs.rs src/coords/utm.rs'
lacking=

# Everything that is missing is told at once: it is added here, and `tell_lacking` ends the run.
lacks() {
    lacking="$lacking
  $*"
}

# Tools, each as COMMAND:PACKAGE, and the toolchain.
seek() {
    for tool; do
        command -v "${tool%:*}" >/dev/null || lacks "${tool%:*}, in Debian's package ${tool#*:}"
    done
    command -v rt >/dev/null || lacks "rt, the Rattle toolchain"
}

seek_source() {
    for file in $sources; do
        [ -f "$source/$file" ] || lacks "$file of geoconvert 1.0.2 in $source: set GEOCONVERT_SRC"
    done
}

tell_lacking() {
    [ -z "$lacking" ] || die "missing:$lacking"
    source=$(cd "$source" && pwd) || exit 2
}

# GeographicLib with this header, and a compiler for it.
has_geographiclib() {
    command -v g++ >/dev/null || return 1
    echo "#include <GeographicLib/$1>" | g++ -E -x c++ - >/dev/null 2>&1
}

# The Rust's own files stand in crate/unchanged and are compared with the source byte for byte.
assemble() {
    mkdir -p crate/src/coords crate/src/projections crate/unchanged/src/coords out || exit 2
    for file in $sources; do cp "$source/$file" "crate/unchanged/$file" || exit 2; done
    cp crate/unchanged/src/*.rs crate/src/ || exit 2
    cp "$here"/doors/*.rs "$here/standins/latlon.rs" crate/src/coords/ || exit 2
    cp "$here/standins/transverse_mercator.rs" "$here/standins/polar_stereographic.rs" crate/src/projections/ || exit 2
    for file in $sources; do
        cmp "$source/$file" "crate/unchanged/$file" || exit 2
    done
    for file in lib.rs constants.rs utility.rs; do
        cmp "$source/src/$file" "crate/src/$file" || exit 2
    done
    (cd crate/unchanged && sha256sum $sources) >sums
    say "the Rust: five files, unchanged"
    cmp -s sums "$here/sources.sha256" || say "NOTE: they are not the files of docs/COMPARISON.md, whose sums are in compare/sources.sha256"
}

rust() { "$rustc" --edition 2021 $optimise -L out "$@" >>build.log 2>&1 || { cat build.log >&2; die "the Rust side does not build"; }; }

# What stands in for the crates that the Rust uses. The first runs in the compiler, so it is for this machine.
build_standins() {
    parts='--extern thiserror=out/libthiserror.so --extern lazy_static=out/liblazy_static.rlib --extern num=out/libnum.rlib'
    rust --out-dir out --crate-type proc-macro --crate-name thiserror "$here/standins/thiserror.rs"
    for name in lazy_static num; do rust $target --out-dir out --crate-type rlib --crate-name $name "$here/standins/$name.rs"; done
}

# The crate, into a folder, with further options of rustc.
build_geoconvert() {
    into=$1
    shift
    rust $target --out-dir "$into" "$@" --crate-type rlib --crate-name geoconvert $parts crate/src/lib.rs
}
