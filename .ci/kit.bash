# Sourced by hand, tests/typed, tests/run and benches/run: the hand program and the C library, proved and built by the kit.

need() { # COMMAND...
    local command
    for command; do
        command -v "$command" >/dev/null || { echo "$0: no '$command' on the PATH" >&2; exit 1; }
    done
}

need rt

store=crates/store/out/store
library=crates/drawing_c/out/libdrawing_c.a

# Each builds its file; first what is not proved yet is proved.
build_store() {
    (cd crates/store && rt run </dev/null)
}

build_library() {
    (cd crates/drawing_c && rt lib)
}
