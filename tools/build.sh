# Sourced by the scripts, at the top of the checkout: how the archive and the report program are built. Both are for every x86-64,
# so the processor is named: by itself rt compiles for newer ones.

# Builds the archive, unless the caller has just done so and says so by ARCHIVE_BUILT. What is said is told only where it fails.
build_archive() {
    local said
    [ -z "${ARCHIVE_BUILT:-}" ] || return 0
    said=$(cd crates/door_c && rt lib --cpu x86-64 2>&1) || { printf '%s\n' "$said" >&2; return 1; }
    keep crates/door_c/out/libdoor_c.a target/staticlib/libdoor.a
}

# Builds the report program. Only rt run does, and it also runs it: on nothing, of which the program prints two lines.
build_report() {
    (cd crates/report && rt run --cpu x86-64 </dev/null) && keep crates/report/out/report target/bin/report
}

# Puts what rt has built where its users look for it.
keep() { # keep FILE COPY
    mkdir -p "${2%/*}" && cp "$1" "$2"
}
