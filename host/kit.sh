# Sourced by the scripts here and in bench/: how a C program is built over the archive of the trace check. Sources
# tools/programs.sh, and defines
#   host_kit             looks for the kit and a compiler, and sets with
#   archive              proves the trace check (crates/trace_c) and writes target/staticlib/libtrace.a
#   build_c OUT FILE..   compiles C files and links them with that archive
#   with                 cc or kit: the machine's own compiler, or the kit's compiler and linker, which need no package
# HOST_WITH=kit or HOST_WITH=cc chooses; else it is cc where there is one. CC names another compiler than cc or gcc.
. "$(dirname "$(readlink -f "${BASH_SOURCE[0]}")")/../tools/programs.sh"

host_kit() {
    need rt
    with=${HOST_WITH:-}
    if [ -z "$with" ]; then
        with=kit
        if find_cc; then with=cc; fi
    fi
    case $with in
    cc) need cc ;;
    kit) cc=("$tools/bin/clang") ;;
    *) unable "HOST_WITH is cc or kit, and not ${with:0:40}" ;;
    esac
}

# The archive, proved and written anew where a file of the crates is newer than it. C callers know it as libtrace.a.
archive() { archive_of trace_c "$root/target/staticlib/libtrace.a"; }

warn=(-std=c99 -Wall -Wextra -Wpedantic -Werror)

# One C file to an object for x86-64, by the kit's compiler, at the level that stands first.
kit_object() { # LEVEL OUT FILE
    "$tools/bin/clang" --target=x86_64-unknown-linux-gnu -march=x86-64 --no-default-config -no-canonical-prefixes -nostdinc \
        -isystem "$root/host/kit" -I "$root/include" "${warn[@]}" "$1" -fPIE -c -o "$2" "$3"
}

build_c() { # OUT FILE..
    local out=$1 objects=() file
    shift
    mkdir -p "$(dirname "$out")"
    if [ "$with" = cc ]; then
        "${cc[@]}" "${warn[@]}" -O2 -I "$root/include" -o "$out" "$@" "$root/target/staticlib/libtrace.a"
        return
    fi
    for file in "$@"; do
        case $file in
        *.c)
            kit_object -O2 "$out.$(basename "$file" .c).o" "$file" || return 1
            objects+=("$out.$(basename "$file" .c).o")
            ;;
        *) objects+=("$file") ;;
        esac
    done
    "$kit/bin/rattle-link" --target x86_64-unknown-linux-gnu --toolchain "$tools" -o "$out" "${objects[@]}" \
        "$root/target/staticlib/libtrace.a" >"$out.link.log" 2>&1 || { cat "$out.link.log" >&2; return 1; }
}
