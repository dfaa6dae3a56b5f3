# For the scripts of tests/ and bench/ in bash, which source it first: `--help` prints a script's first comment and starts nothing, and
# what a script needs is tested before it begins, with the Debian package that has it (tests/packages.txt).
#
#     . "$(dirname "$0")/needs.sh"
#     help_if_asked "$@"            # --help or -h among the arguments: prints the comment, status 0
#     need gcc rt                   # each must be on the PATH, else status 2
#     need_rust                     # a compiler for Rust, edition 2024
#     need_oracle SRC               # what tests/oracle/build needs
#     timed_library ROOM CRATE...   # proves and builds a static library of the source on standard input, over copies of the crates: its path
#     bad_usage ["WORDS"]           # the words and the comment on standard error, status 2
#     refuse "WORDS"                # the words alone, status 2
#
# It sets script (the script's path), tests (this folder), name (the script's path in the repository) and registry (Debian's crates).
script=$(realpath "$0")
tests=$(dirname "$(realpath "${BASH_SOURCE[0]}")")
name=${script#"$(dirname "$tests")"/}

header() { sed -n '2,${/^#/!q;s/^# \{0,1\}//p}' "$script"; }

help_if_asked() {
    local word
    for word in "$@"; do
        case $word in -h | --help) header; exit 0 ;; esac
    done
}

refuse() {
    echo "$name: $*" >&2
    exit 2
}

bad_usage() {
    [ $# = 0 ] || echo "$name: $*" >&2
    header >&2
    exit 2
}

need() {
    local tool row package missing=
    for tool in "$@"; do
        command -v "$tool" > /dev/null && continue
        package="see its own documents"
        while read -r row; do
            [ "${row%% *}" != "$tool" ] || package=${row#* }
        done < "$tests/packages.txt"
        case $package in *' '*) ;; *) package="apt-get install $package" ;; esac
        echo "$name: $tool is not on the PATH ($package)" >&2
        missing=1
    done
    [ -z "$missing" ] || exit 2
}

need_rust() {
    need rustc gcc
    # It writes nothing: as root, a compiler that is given /dev/null as its output puts a file in the place of the device.
    rustc --edition 2024 --print sysroot > /dev/null 2>&1 ||
        refuse "$(rustc --version 2>&1) does not do: edition 2024 is needed, which 1.85 has (Debian 13)"
}

# The compiler, Debian's crates, and the Rust itself.
registry=/usr/share/cargo/registry
need_oracle() {
    local crate file missing=
    need cargo
    need_rust
    for crate in anyhow itertools fixedbitset log; do
        compgen -G "$registry/$crate-[0-9]*" > /dev/null || missing+=" librust-$crate-dev"
    done
    [ -z "$missing" ] || refuse "crates of Debian are missing (apt-get install$missing)"
    for file in analysis/{slices,cfa,executor,mod} obj/{mod,sections,symbols,relocations} util/mod; do
        [ -r "$1/src/$file.rs" ] || refuse "$1 has no src/$file.rs; SRC is a checkout of encounter/decomp-toolkit, commit 9d1ac132c4"
    done
}

# For what no crate exports to C: a crate that does, beside copies of those that it stands on. Its folder lies outside the repository, in which rt
# takes no other crates. Those that it stands on are proved where they are, and a copy takes what was proved of the same files.
timed_library() { # ROOM CRATE...
    local room=$1 crate root
    root=$(dirname "$tests")
    shift
    mkdir -p "$room/crates/timed/src" "$root/target"
    cat > "$room/crates/timed/src/lib.rt"
    { cat "$root/crates.txt"; echo "timed staticlib: $*"; } > "$room/crates.txt"
    (cd "$root" && cp -r --parents crates/*/src crates/*/specs crates/*/proofs "$room")
    {
        for crate in "$@"; do (cd "$root/crates/$crate" && rt lib) || return; done
        (cd "$room/crates/timed" && rt lib)
    } > "$root/target/bench.log" 2>&1 || { cat "$root/target/bench.log" >&2; return 1; }
    echo "$room/crates/timed/out/libtimed.a"
}
