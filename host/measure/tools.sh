# What host/bench and host/stack have in common; `here` is their folder. The library is for x86-64: on another processor
# the programs that call it are compiled by the cross compiler, whose name `tools` begins.
root="$here/.."
library="$root/crates/referee/out/libreferee.a"
tools=x86_64-linux-gnu-
if [ "$(uname -m)" = x86_64 ]; then
    tools=
fi

need() {
    command -v "$1" > /dev/null || { echo "host/$(basename "$0"): $1 is missing; on Debian it is in the package $2" >&2; exit 2; }
}

need_compiler() {
    if [ -n "$tools" ]; then
        need "${tools}gcc" gcc-x86-64-linux-gnu
    else
        need gcc gcc
    fi
}

# Builds the library, and the named programs in Rust.
build() {
    (cd "$root/crates/referee" && rt lib) > "$work/said" 2>&1 || { cat "$work/said" >&2; exit 2; }
    cargo build --quiet --release --offline --manifest-path "$here/measure/Cargo.toml" --target-dir "$here/target" "$@"
}

# Compiles the named program in C against the library.
compile() {
    "${tools}gcc" -static -O2 -Wall -Wextra -o "$work/$1" -I "$root/include" "$here/measure/$1.c" "$here/measure/calls.c" "$library"
}

work="$(mktemp -d)"
trap 'rm -rf "$work"' EXIT
