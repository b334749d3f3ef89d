# What play, host/compare and host/alike have in common: how the program replay is run. `root` is the project's folder.
# Programs are compiled for x86-64. Another processor runs them in an emulator, Debian's qemu-user.
program="$root/crates/replay/out/replay"

not_run() {
    echo "$(basename "$0"): $1" >&2
    exit 2
}

# Sets `replay`, the command that plays the record on its standard input.
find_replay() {
    local name emulator=''
    command -v rt > /dev/null || not_run "rt is missing; it is the command of the Rattle toolchain"
    replay=("$program")
    if [ "$(uname -m)" = x86_64 ]; then
        return
    fi
    for name in qemu-x86_64 qemu-x86_64-static; do
        if command -v "$name" > /dev/null; then
            emulator="$name"
            break
        fi
    done
    [ -n "$emulator" ] || not_run "no emulator for x86-64 is here; on Debian it is in the package qemu-user"
    replay=("$emulator" "${replay[@]}")
}

# The same for a program that is built already, or that the variable REPLAY names by its command.
find_built_replay() {
    if [ -n "${REPLAY:-}" ]; then
        read -r -a replay <<< "$REPLAY"
        command -v "${replay[0]}" > /dev/null || not_run "${replay[0]} is not there"
        return
    fi
    [ -x "$program" ] || not_run "crates/replay/out/replay is not there; rt run in crates/replay builds it"
    find_replay
}
