# What the commands in shell share: help, version and usage, needs, steps, and programs over the
# archive. A command sets `root` to the repository, reads this in and calls `answer "$@"`. Plain POSIX
# shell.
# shellcheck shell=sh

me=${0##*/}

# The comment at the head of the command is its help. One line of it begins with `usage: `.
help_text() { sed -n '1d; /^#/!q; s/^# \{0,1\}//p' "$0"; }

# The version of the face, which every command has.
version() { sed -n 's/^#define WATCH_VERSION  *\([0-9][0-9]*\)$/\1/p' "$root/include/watch.h"; }

# Answers a word that asks for help or for the version, and ends then.
answer() {
    for word in "$@"; do
        case $word in
        -h | --help) help_text ;;
        --version) echo "$(help_text | sed -n 's/^usage: \([^ ]*\).*/\1/p') $(version)" ;;
        *) continue ;;
        esac
        exit 0
    done
}

# Says how the command is called, where its words are no such thing.
usage() {
    help_text | grep '^usage: ' >&2
    exit 2
}

# words LEAST MOST WORD..: holds the command to so many words, none of which is empty or begins with -.
words() {
    [ $# -ge $(($1 + 2)) ] && [ $# -le $(($2 + 2)) ] || usage
    shift 2
    for word in "$@"; do
        case $word in '' | -*) usage ;; esac
    done
}

say() { echo "$me: $*" >&2; }

# stop STATUS WORDS..
stop() {
    status=$1
    shift
    say "$*"
    exit "$status"
}

# need PROGRAM PACKAGE: stops where a program is missing.
need() { command -v "$1" >/dev/null || stop 2 "no $1; Debian's package $2 has it"; }

# need_kit WORDS: stops where the kit is missing, and says what it is for.
need_kit() { command -v rt >/dev/null || stop 2 "no rt: $1, and that needs the Rattle kit"; }

# Sets `compiler`, the words that compile for x86-64, and `emulator`, those before such a program. Stops
# where one is missing, or the C library.
need_compiler() {
    if [ "$(uname -m)" = x86_64 ]; then
        compiler=gcc emulator='' library=libc6-dev
        need gcc gcc
    else
        compiler='x86_64-linux-gnu-gcc -static' emulator=qemu-x86_64 library=libc6-dev-amd64-cross
        need x86_64-linux-gnu-gcc gcc-x86-64-linux-gnu
        need qemu-x86_64 qemu-user
    fi
    echo '#include <stdio.h>' | $compiler -E -x c - >/dev/null 2>&1 ||
        stop 2 "${compiler%% *} finds no C library; Debian's package $library has it"
}

# A crate and all that it stands on, in the order in which rt proves them.
in_order() {
    awk -v wanted="$1" '
        function visit(name,    words, many, k) {
            if (name in seen) return
            seen[name] = 1
            many = split(needs[name], words, " ")
            for (k = 1; k <= many; k++)
                if (words[k] in needs) visit(words[k])
            print name
        }
        { sub(/#.*/, "") }
        index($0, ":") {
            split(substr($0, 1, index($0, ":") - 1), head, " ")
            needs[head[1]] = substr($0, index($0, ":") + 1)
        }
        END { visit(wanted) }' "$root/crates.txt"
}

# step NAME: says that this crate is proved now, where it is one of `names` and was not said last.
step() {
    case $names in *" $1 "*) [ "$1" != "$said" ] || return 0 ;; *) return 0 ;; esac
    said=$1 at=0
    for one in $names; do
        at=$((at + 1))
        [ "$one" != "$1" ] || break
    done
    say "proving $at of $many: $1"
}

# steps NAME..: says which crate is proved now, by what rt writes, which goes to the log. Of a crate that was proved
# before rt writes nothing; then the next one of which it writes is said.
steps() {
    names=" $* " many=$# said='' crate=''
    step "$1"
    while IFS= read -r line; do
        case $line in
        "rt ended with "*) return "${line#rt ended with }" ;;
        "fn "*::* | "struct "*::* | "enum "*::*)
            crate=${line#* }
            step "${crate%%::*}"
            ;;
        "crate "*": modules "*)
            crate=${line#crate }
            crate=${crate%%:*}
            step "$crate"
            ;;
        "logic=proved "*)
            after=${names#*" $crate "}
            [ "$after" = "$names" ] || step "${after%% *}"
            ;;
        "logic=not-proved"*) say "$crate NOT PROVED" ;;
        "rt: the library "*" did not build,"*) say "${line#rt: }" ;;
        esac
        printf '%s\n' "$line" >&3
    done 3>"$log"
    return 2
}

# made CRATE VERB FILE: has rt do this in the crate's folder; the status is 0 where it makes out/FILE. Under run that is
# the program, which rt then runs too, without words and input: how that ends says nothing.
made() {
    cd "$root/crates/$1" && rm -f "out/$3" "out/$3.stamp" || return 2
    rt "$2" </dev/null 2>&1 || [ "$2" = run ] || return
    [ -f "out/$3" ]
}

# prove CRATE lib|run FILE PLACE: has the kit prove the crate and what that stands on, and make of it the archive or the
# program out/FILE, which is put at its place. Says a line for each step, and where it fails the name of the log that has
# the prover's text.
prove() {
    log=$root/target/log/$me.prover
    mkdir -p "$root/target/log" "$(dirname "$root/$4")"
    # shellcheck disable=SC2046
    { (made "$1" "$2" "$3"); echo "rt ended with $?"; } | steps $(in_order "$1") &&
        cp "$root/crates/$1/out/$3" "$root/$4.$$" && mv -f "$root/$4.$$" "$root/$4" ||
        stop 2 "not proved and built; the prover's text is in $log"
}

# prove_program NAME: the same of a program, which is target/bin/NAME then.
prove_program() { prove "$1" run "$1" "target/bin/$1"; }

# Whether this is an installed package and no repository: there all is built.
packaged() { [ ! -e "$root/crates.txt" ]; }

# over_archive NAME: makes target/NAME of bindings/c/NAME.c and the archive, where it is missing or old, and the archive before it.
over_archive() {
    if packaged; then
        program=$root/target/$1 emulator=''
        [ "$(uname -m)" = x86_64 ] || emulator=qemu-x86_64
        return
    fi
    need_compiler
    "$root/tools/build-c" >/dev/null || exit 2
    program=$root/target/$1 archive=$root/target/staticlib/libwatch_c.a
    if [ ! -f "$program" ] || [ -n "$(find "$root/bindings/c" "$root/include" "$archive" -newer "$program" -print -quit)" ]; then
        $compiler -std=c11 -O2 -I"$root/include" "$root/bindings/c/$1.c" "$archive" -o "$program.$$" && mv -f "$program.$$" "$program" ||
            stop 2 "bindings/c/$1.c does not compile"
    fi
}
