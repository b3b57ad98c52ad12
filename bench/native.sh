# Sourced by the scripts here, after host/kit.sh: code for x86-64 as the toolchain compiles it.
#   native_object OUT FLAG.. FILE   a C file by the kit's compiler, at the level at which it compiles Rattle
#   native_library CRATE OUT        what a static library exports, as one object
#   native_program CRATE OUT        a program
level=(-ffunction-sections -fdata-sections -mllvm -trap-unreachable -mllvm -no-trap-after-noreturn --no-default-config -no-canonical-prefixes -fPIC -O3)

native_object() { # OUT FLAG.. FILE
    local made=$1
    shift
    "$tools/bin/clang" --target=x86_64-unknown-linux-gnu -march=x86-64-v2 "${level[@]}" -std=c99 -nostdinc -isystem "$root/host/kit" -c -o "$made" "$@"
}

native_library() { # CRATE OUT
    local name=$1 made=$2
    archive_of "$name" "$root/target/staticlib/lib$name.a" || return 2
    rm -rf "$made.d"
    mkdir -p "$made.d"
    (cd "$made.d" && ar x "$root/target/staticlib/lib$name.a" && ld -r -o "$made" ./*.o) || return 2
}

native_program() { # CRATE OUT
    program "$1" && cp "$root/crates/$1/out/$1" "$2"
}
