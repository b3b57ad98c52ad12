# Sourced by the scripts here. Sources tools/programs.sh, goes to the repository's root, and defines
#   build_oracle  builds the comparing programs, with no network, into target/oracle
#   made          the folder that they are in
#   build_timed   builds the program that the excerpts are timed by, at full optimisation
#   timed         that program
. "$(dirname "$(readlink -f "${BASH_SOURCE[0]}")")/../tools/programs.sh"
made=$root/target/oracle/checks
timed=$root/target/oracle/release/pace
cd "$root" || exit 2

# cargo_build WORD..: cargo's build of the workspace here, quiet where it passes.
cargo_build() {
    need cargo
    local log=$root/target/oracle/build.log
    mkdir -p "$root/target/oracle"
    CARGO_TARGET_DIR=$root/target/oracle cargo build "$@" --offline --locked --manifest-path oracle/Cargo.toml >"$log" 2>&1 || {
        cat "$log" >&2
        unable "the Rust cannot be built"
    }
}

build_oracle() { cargo_build --profile checks --package compare; }

build_timed() { cargo_build --release --package cachekit; }
