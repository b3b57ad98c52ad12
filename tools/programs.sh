# Sourced by the shell commands: what they share. Each ends with 0 where it ended well, 1 where something was refused or
# differs, 2 where it could not run (usage, files, something that is missing). Defines
#   root                the repository
#   unable TEXT         says why the command cannot run, and ends it with status 2
#   takes LEAST MOST "$@"   --help prints the command's head; an option, or too few or too many words, are refused
#   need NAME..         what the command needs is there: rt, python3, cargo, cc, valgrind
#   find_cc             sets the array cc: the words of CC, or cc, or gcc
#   program NAME..      proves, compiles and links programs (crates/NAME/out/NAME), and says how far it is
#   archive_of NAME OUT proves a static library and copies its archive to OUT
#   current FILE NAME   FILE need not be made again from the crates of NAME
#   kit, tools          (after `need rt`) the kit's folder, and the one of its clang, linker and C library
root=$(cd "$(dirname "$(readlink -f "${BASH_SOURCE[0]}")")/.." && pwd -P)
me=$(readlink -f "$0" || true)
me=${COMMAND:-${me#"$root"/}}

unable() {
    echo "$me: $*" >&2
    exit 2
}

# The head of the command's file, without its #.
help_text() {
    awk 'NR == 1 { next } !/^#/ { exit } { sub(/^# ?/, ""); print }' "$(readlink -f "$0")"
    echo "Statuses: 0 it ended well; 1 something was refused, or differs; 2 it could not run (usage, files)."
}

takes() {
    local least=$1 most=$2 word
    shift 2
    for word; do
        case $word in
        -h | --help) help_text; exit 0 ;;
        -?*) unable "$word is no option; $me --help tells what there is" ;;
        esac
    done
    if [ $# -lt "$least" ] || [ $# -gt "$most" ]; then
        unable "$# words, where it takes $least to $most; $me --help tells more"
    fi
}

# is_number WORD..: each is a number in decimal digits, below 10^18.
is_number() {
    local word
    for word; do
        case $word in '' | *[!0-9]*) unable "${word:0:40} is no number; $me --help tells more" ;; esac
        if [ ${#word} -gt 18 ]; then unable "${word:0:40} is too large a number; $me --help tells more"; fi
    done
}

find_cc() {
    local name
    if [ -n "${CC:-}" ]; then
        read -ra cc <<<"$CC"
        command -v "${cc[0]}" >/dev/null 2>&1 || unable "CC names ${cc[0]}, which is not there"
        return 0
    fi
    for name in cc gcc; do
        if command -v "$name" >/dev/null 2>&1; then cc=("$name"); return 0; fi
    done
    return 1
}

need() {
    local name
    for name; do
        case $name in
        cc) find_cc || unable "no C compiler: install one (Debian: apt-get install gcc) or name one in CC" ;;
        rt)
            command -v rt >/dev/null ||
                unable "rt is missing: install the Rattle kit and put its bin folder on the PATH"
            kit=$(cd "$(dirname "$(readlink -f "$(command -v rt)")")/.." && pwd -P)
            tools=$kit/toolchain
            ;;
        python3)
            command -v python3 >/dev/null ||
                unable "python3 is missing: install Python 3.8 or newer (Debian: apt-get install python3)"
            python3 -c 'import sys; sys.exit(sys.version_info < (3, 8))' || unable "python3 is older than 3.8"
            ;;
        cargo)
            command -v cargo >/dev/null ||
                unable "cargo is missing: install Rust 1.66 or newer (https://rustup.rs; Debian: apt-get install cargo)"
            ;;
        valgrind)
            command -v valgrind >/dev/null ||
                unable "valgrind is missing: it counts the instructions (Debian: apt-get install valgrind)"
            ;;
        *) unable "cannot look for $name" ;;
        esac
    done
}

# The crates of the repository that a program is made of, itself last: crates.txt lists those that each names itself.
crates_of() { # NAME
    sed 's/#.*//' "$root/crates.txt" | awk -F: -v program="$1" '
        function visit(name, i, many, below) {
            if (name in seen || !(name in lists)) return
            seen[name] = 1
            many = split(lists[name], below, " ")
            for (i = 1; i <= many; i++) visit(below[i])
            print name
        }
        NF > 1 { split($1, head, " "); lists[head[1]] = $2 }
        END { visit(program) }'
}

# The files that a program or an archive of these crates is made from.
parts_of() { # NAME
    local name part
    echo ../crates.txt
    for name in $(crates_of "$1"); do
        for part in src specs proofs; do
            if [ -d "$root/crates/$name/$part" ]; then echo "$name/$part"; fi
        done
    done
}

# A sum of these files.
sum_of() { # NAME
    # shellcheck disable=SC2046
    (cd "$root/crates" && find $(parts_of "$1") -type f -print0 | LC_ALL=C sort -z | xargs -0 sha256sum | sha256sum)
}

# current FILE NAME: FILE was made of the crates of NAME as they are: none of their files is newer, or they are the same,
# by their sum, as when it was made.
current() {
    local note=$root/target/log/made-${1##*/}
    if [ ! -f "$1" ]; then return 1; fi
    # shellcheck disable=SC2046
    if [ -z "$(cd "$root/crates" && find $(parts_of "$2") -newer "$1" -print -quit)" ]; then
        if [ ! "$note" -nt "$1" ]; then made "$1" "$(sum_of "$2")"; fi
        return 0
    fi
    [ -f "$note" ] && [ "$(cat "$note")" = "$(sum_of "$2") $(sha256sum <"$1")" ]
}

# made FILE SUM: notes that FILE was made of the crates that have this sum
made() {
    mkdir -p "$root/target/log"
    echo "$2 $(sha256sum <"$1")" >"$root/target/log/made-${1##*/}"
}

# Reads what `rt` says, and says how far it is: the crates proved of all, and the time so far.
progress() { # HOW-MANY
    local all=$1 done=0 line began=$SECONDS took shown=no
    while IFS= read -r line; do
        case $line in
        'crate '*': modules loaded='*)
            done=$((done + 1))
            took=$((SECONDS - began))
            shown=yes
            line=${line#crate }
            if [ -t 2 ]; then printf '\r\033[K' >&2; fi
            printf '%s: %d of at most %d crates proved, %d:%02d so far (%s)' "$me" "$done" "$all" \
                $((took / 60)) $((took % 60)) "${line%%:*}" >&2
            if [ ! -t 2 ]; then echo >&2; fi
            ;;
        esac
    done
    if [ "$shown" = yes ] && [ -t 2 ]; then echo >&2; fi
}

# The programs that are missing or not current, by `rt run`, which also runs each: on no input, and what it writes is
# dropped. `rt ci` leaves what it built in the same place.
program() { # NAME..
    local name file log sum
    mkdir -p "$root/target/log"
    for name; do
        file=$root/crates/$name/out/$name log=$root/target/log/build-$name.log
        if current "$file" "$name"; then continue; fi
        if [ ! -x "$file" ]; then
            echo "$me: proving and building $name; where none of its crates is proved yet that takes minutes" >&2
        fi
        touch "$log.began"
        sum=$(sum_of "$name")
        { (cd "$root/crates/$name" && rt run </dev/null 2>&1 >/dev/null) || true; } | tee "$log" |
            progress "$(crates_of "$name" | wc -l)"
        if [ ! -x "$file" ] || ! grep -q "^rt: running out/$name;" "$log"; then
            tail -n 20 "$log" >&2
            echo "$me: $name cannot be built; $log has all that was said" >&2
            return 2
        fi
        touch -r "$log.began" "$file"
        made "$file" "$sum"
    done
}

# The archive of a static library, where it is missing or not current: as `rt lib` makes it, over the libraries that
# stand there.
archive_of() { # NAME OUT
    local own=$root/crates/$1/out/lib$1.a log=$root/target/log/build-$1.log sum
    if current "$2" "$1"; then return 0; fi
    mkdir -p "$root/target/log" "$(dirname "$2")"
    rm -f "$own" "$2"
    touch "$log.began"
    sum=$(sum_of "$1")
    need python3
    python3 "$root/tools/kit.py" archive "$1" </dev/null >"$log" 2>&1 || { tail -n 20 "$log" >&2; return 2; }
    cp "$own" "$2"
    touch -r "$log.began" "$2"
    made "$2" "$sum"
}
