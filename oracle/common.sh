# What the commands of oracle/ share: where things stand, their options, and which tools make and run
# x86-64 programs here.

say() { printf 'oracle: %s\n' "$*"; }
die() { printf 'oracle: %s\n' "$*" >&2; exit 2; }

root=$(cd "$(dirname "$0")/.." && pwd -P)
build=${ORACLE_BUILD:-$root/target/oracle}
source=${UBLOX_SRC:-$root/../shared/docs/src}
library=
without_library=
rust_only=
program_words=

# Takes the options that are the build's; the rest goes to the program, one word to a line.
take_options() {
    while [ $# -gt 0 ]; do
        case $1 in
        --source) [ $# -gt 1 ] || die "--source needs a folder"; source=$2; shift ;;
        --library) [ $# -gt 1 ] || die "--library needs a file"; library=$2; shift ;;
        --without-library) without_library=yes ;;
        --rust-only) rust_only=yes ;;
        *) program_words="$program_words$1
" ;;
        esac
        shift
    done
}

# The library: the one that was named, or the repository's own, made where it is missing.
find_library() {
    if [ -z "$library" ]; then
        library=$root/target/staticlib/liborgnevis.a
        [ -f "$library" ] || "$root/staticlib"
    fi
    [ -f "$library" ] || die "there is no $library"
}

# The first digits of a file's SHA-256.
digest() { sha256sum "$1" | cut -c 1-16; }

# Which Rust and which library it is, for the report of a run.
describe() {
    crate=$source/src
    echo "Rust     ublox 0.10.0, parser.rs $(digest "$crate/parser.rs"), buffer.rs $(digest "$crate/parser/buffer.rs"), checksum.rs $(digest "$crate/parser/checksum.rs")"
    [ -n "$without_library" ] || echo "library  $(basename "$library"), $(wc -c <"$library") bytes, $(digest "$library")"
}

# Builds what is not built yet. What the build says is kept in build.log; what went wrong is shown.
build_quietly() {
    mkdir -p "$build"
    set -- --source "$source"
    [ -z "$library" ] || set -- "$@" --library "$library"
    [ -z "$without_library" ] || set -- "$@" --without-library
    "$root/oracle/build" "$@" >"$build/build.log" || die "the build failed; $build/build.log has the rest"
}

# Runs the comparing program: its command, then what take_options left. Its exit status is ours.
run_program() { # COMMAND
    set -- "$1" --about "$build/about"
    if [ -z "$without_library" ]; then
        runner=$(emulator) || exit 2
        set -- "$@" --serve "$build/serve" --emulator "$runner"
    fi
    old_ifs=$IFS
    IFS='
'
    # shellcheck disable=SC2086
    set -- "$@" $program_words
    IFS=$old_ifs
    exec "$build/cargo/release/oracle" "$@"
}

# The program that runs an x86-64 program on this machine; empty where none is needed.
emulator() {
    if [ "$(uname -m)" = x86_64 ]; then return; fi
    if [ -n "${EMULATOR:-}" ]; then echo "$EMULATOR"; return; fi
    command -v qemu-x86_64 || die "the library is for x86-64: install qemu-user, or name an emulator in EMULATOR"
}

# The C compiler for x86-64, with the words that make it one.
x86_compiler() {
    if [ -n "${CC_X86:-}" ]; then echo "$CC_X86"
    elif [ "$(uname -m)" = x86_64 ]; then echo "${CC:-cc}"
    elif command -v x86_64-linux-gnu-gcc; then return
    elif command -v clang >/dev/null && command -v ld.lld >/dev/null; then
        echo "clang --target=x86_64-linux-gnu -fuse-ld=lld"
    else die "no C compiler for x86-64: install gcc-x86-64-linux-gnu, or clang and lld, or set CC_X86"
    fi
}
