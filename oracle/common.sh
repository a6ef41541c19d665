# Shared by the scripts: finds the repository and builds what they need.

oracle=$(cd "$(dirname "${BASH_SOURCE[0]}")" && pwd)
root=$(cd "$oracle/.." && pwd)
programs=$root/target/oracle

say() {
    echo "oracle: $*" >&2
}

# The static library of the proved operations. SILLURWY_LIB_DIR names another one.
need_library() {
    [ -n "${SILLURWY_LIB_DIR:-}" ] || "$root/dev/built" host_c
}

# A proved program, in target/bin.
need_program() {
    "$root/dev/built" "$1"
}

# The proved program segments. SILLURWY_SEGMENTS names another one.
need_segments() {
    if [ -z "${SILLURWY_SEGMENTS:-}" ]; then
        need_program segments
        export SILLURWY_SEGMENTS=$root/target/bin/segments
    fi
}

# Builds one program of this crate and becomes it: name, then its words.
build_and_run() {
    local name=$1
    shift
    say "building the Rust side: cargo build --release --offline --bin $name"
    (cd "$oracle" && CARGO_TARGET_DIR=$programs cargo build --quiet --release --offline --bin "$name") >&2
    say "running $name${*:+ $*}"
    exec "$programs/release/$name" "$@"
}
