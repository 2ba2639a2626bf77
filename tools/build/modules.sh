# Sourced: gets the module that a static library is compiled from. Needs `work`, an existing folder of its own; sets `kit`,
# `machine` and `tools` (the kit's compiler).
. "$(dirname "${BASH_SOURCE[0]}")/programs.sh"
rt_path=$(command -v rt) || { echo "the Rattle toolchain's command rt is not on PATH" >&2; exit 2; }
kit=$(dirname "$(dirname "$(readlink -f "$rt_path")")")
tools=$kit/toolchain/bin

# Links what is in a folder of the kit into the copy, except the parts PART...
linked() { # FOLDER PART..
    local folder=$1 part
    shift
    mkdir -p "$shadow/$folder"
    for part in "$kit/$folder"/*; do
        case " $* " in *" ${part##*/} "*) ;; *) ln -s "$part" "$shadow/$folder/" ;; esac
    done
}

# Makes $work/kit, a copy of the kit whose compiler keeps its input module as $work/module.bc. rt finds its kit by its own place, so its
# two files are copied.
keeping_kit() {
    shadow=$work/kit
    rm -rf "$shadow"
    linked . bin toolchain
    linked bin rt rtlib.py
    linked toolchain bin
    linked toolchain/bin clang
    cp "$kit/bin/rt" "$kit/bin/rtlib.py" "$shadow/bin/"
    cat >"$shadow/toolchain/bin/clang" <<END
#!/bin/sh
for word; do case \$word in *.bc) cp "\$word" "$work/module.bc" ;; esac; done
exec "$tools/clang" "\$@"
END
    chmod +x "$shadow/toolchain/bin/clang"
}

# Builds the static library NAME of the repository in the current folder, and leaves its module in $work/module.bc. What it stands on is
# built first by rt itself, which takes what other copies of the repository have proved. What the copy keeps beside itself goes again.
module_of() { # NAME
    local ended=0
    (cd "crates/$1" && rt lib "${for_machine[@]}") || return 1
    rm -f "$work/module.bc"
    keeping_kit || return 1
    (cd "crates/$1" && "$shadow/bin/rt" lib "${for_machine[@]}") || ended=$?
    rm -rf "$shadow" "$work/rattle-kept"
    [ -f "$work/module.bc" ] && return "$ended"
}
