# shellcheck shell=bash
# Sourced: builds and starts proved programs on this machine, and reports missing Debian packages. Sets `house`, the repository's
# folder, and `start`, the words before a program's path. Users call ./run; the tests and ./flight use the same functions.
house=$(cd "$(dirname "${BASH_SOURCE[0]}")/../.." && pwd)

# The programs are for x86-64 and a C library of 2.34 or newer. Elsewhere they start under the kit's loader and C library. On another
# processor the system has to run programs of x86-64, as it does for rt itself.
own_library_fits() {
    [ "$(uname -m)" = x86_64 ] && [ -e /lib64/ld-linux-x86-64.so.2 ] || return 1
    local version
    version=$(getconf GNU_LIBC_VERSION 2>/dev/null) || return 1
    printf '2.34\n%s\n' "${version##* }" | sort -V -C
}

if own_library_fits; then
    start=
else
    rt_path=$(command -v rt) || { echo "the Rattle toolchain's command rt is not on PATH" >&2; exit 2; }
    tools=$(dirname "$(dirname "$(readlink -f "$rt_path")")")/toolchain
    start="$tools/lib/ld-linux-x86-64.so.2 --library-path $tools/lib"
fi

# What rt is told to compile for this machine: on x86-64 for any processor, as a static library does not look which one it runs on.
machine=$(uname -m)
for_machine=(--target "$machine-unknown-linux-gnu")
[ "$machine" != x86_64 ] || for_machine+=(--cpu=x86-64)

# Whether a file or folder is there and no source of the crates is newer. What rt makes, crates/NAME/out, is no source.
is_fresh() { # FILE
    [ -e "$1" ] && [ -z "$(find "$house/crates.txt" "$house"/crates/*/* -path "$house/crates/*/out" -prune -o -newer "$1" -print -quit)" ]
}

# These crates and all crates of this repository that they need, one on each line; after each crate those that it needs.
closure() { # NAME..
    awk -v asked="$*" '
        /^[a-z_0-9]+( [^:#]*)?:/ { name = $1; sub(":", "", name); sub(/^[^:]*:/, ""); sub(/#.*/, ""); deps[name] = $0 }
        function visit(one,   list, n, i) {
            if (seen[one]++ || !(one in deps)) return
            print one
            n = split(deps[one], list, " ")
            for (i = 1; i <= n; i++) visit(list[i])
        }
        END { n = split(asked, names, " "); for (i = 1; i <= n; i++) visit(names[i]) }' "$house/crates.txt"
}

# Takes a program from crates/NAME/out to target/bin, if it is there and newer. While `rt ci` runs, it is not there.
taken() { # NAME
    local made=$house/crates/$1/out/$1 kept=$house/target/bin/$1
    [ -x "$made" ] && [ "$made" -nt "$kept" ] || return 1
    mkdir -p "$house/target/bin"
    # Under a name of its own first: the old one may be running.
    cp "$made" "$kept.$$" 2>/dev/null && mv -f "$kept.$$" "$kept"
}

# Proves and builds a program, and puts it into target/bin. `rt run` also starts it; it gets no input, and its status says nothing.
# rt leaves a stamp beside a program that it has proved and built.
proved_anew() { # NAME
    (cd "$house/crates/$1" && { rt run </dev/null || true; } && [ -f "out/$1.stamp" ] && touch "out/$1") && taken "$1"
}

# Proves and builds the programs that are not built yet. The output of rt goes to target/built.log; its end is shown if it fails.
built() { # PROGRAM..
    local name missing=()
    for name; do
        taken "$name" || [ -x "$house/target/bin/$name" ] || missing+=("$name")
    done
    [ ${#missing[@]} -gt 0 ] || return 0
    command -v rt >/dev/null || { echo "${missing[*]}: not built, and the Rattle toolchain's command rt is not on PATH" >&2; return 2; }
    echo "${missing[*]}: not built yet; 'rt run' proves and builds, which takes minutes the first time" >&2
    mkdir -p "$house/target"
    : >"$house/target/built.log"
    for name in "${missing[@]}"; do
        proved_anew "$name" >>"$house/target/built.log" 2>&1 && continue
        tail -n 20 "$house/target/built.log" >&2
        echo "$name: not built (target/built.log)" >&2
        return 1
    done
}

# Checks for a command or a file of a Debian package. If it is missing, names the package, and installs it unless NO_INSTALL is set.
need() { # COMMAND PACKAGE
    command -v "$1" >/dev/null 2>&1 || installed "$2"
}
need_file() { # FILE PACKAGE
    [ -e "$1" ] || installed "$2"
}
installed() { # PACKAGE
    if [ -n "${NO_INSTALL:-}" ]; then
        echo "Debian's package $1 is missing: apt-get install $1" >&2
        exit 2
    fi
    echo "installing Debian's package $1" >&2
    apt-get update -qq && apt-get install -y -qq "$1" >/dev/null
}
