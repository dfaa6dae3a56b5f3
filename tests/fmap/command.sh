# The command ./fmap: its exit statuses, its words, and when it proves. Sourced by `run`. It is tried in a copy, which has the program, no
# code, and in the place of rt a few lines of shell, so that nothing is proved here, however old the program is.

copy=$work/copy
tools=$work/tools
sample=$here/cases/sample.frames

make_copy() {
    mkdir -p "$copy"/crates/fmap/{src,out} "$copy/docs" "$tools" "$work/fake"
    cp "$root/fmap" "$copy/fmap"
    cp "$root/docs/numbers.txt" "$copy/docs/"
    printf '# Two crates below it, and two that it does not need.\nlow:\nmiddle: low io\nother: low\nlow_c staticlib: low\nfmap: low middle io # the program\n' > "$copy/crates.txt"
    touch -d '2001-01-01' "$copy/crates.txt" "$copy/crates" "$copy/crates/fmap" "$copy/crates/fmap/src"
    # A PATH with what the command needs and no rt.
    local tool
    for tool in awk bash cat cp dirname find head mkdir mktemp realpath rm sed touch; do ln -sf "$(command -v $tool)" "$tools/$tool"; done
    # An rt that says what rt says, and does what $RT_DOES has.
    cat > "$work/fake/rt" <<'END'
#!/usr/bin/env bash
echo "$PWD: rt $*" >> "$RT_CALLS"
exec 3>&1 >&2
echo 'rt: chose --jobs 2 for low'
echo 'fn low::one: proved'
echo 'statements std: modules loaded=21 checked=0'
echo 'crate low: modules loaded=1 checked=32'
echo 'logic=proved functions=1 sum=0'
eval "$RT_DOES"
END
    chmod +x "$work/fake/rt"
    export RT_CALLS=$work/calls RT_DOES='exit 99'
    put_program "$program"
}

# The program in the copy, which is newer than its code.
put_program() { # FILE
    cp "$1" "$copy/crates/fmap/out/fmap"
    chmod +x "$copy/crates/fmap/out/fmap"
}

no_program() { rm -f "$copy/crates/fmap/out/fmap"; }

# A program of a few words of shell.
fake_program() { # WORDS
    printf '#!/usr/bin/env bash\n%s\n' "$1" > "$work/program"
    put_program "$work/program"
}

# Tries a command line in the copy. Standard error must have the words in one of its lines, or be empty where there are none.
try() { # NAME STATUS STDOUT_FILE WORDS COMMAND...
    local called=$1 wanted=$2 stored=$3 words=$4 status=0 why=
    shift 4
    : > "$RT_CALLS"
    "$@" > "$work/printed" 2> "$work/said" || status=$?
    [ "$status" = "$wanted" ] || why+=" its status is $status and not $wanted;"
    cmp -s "$stored" "$work/printed" || why+=" it prints something else;"
    if [ -n "$words" ]; then grep -qF -- "$words" "$work/said" || why+=" it does not say '$words';"; else [ ! -s "$work/said" ] || why+=" it says something;"; fi
    if [ -z "$why" ]; then
        pass
        return
    fi
    fail "./fmap, $called:${why%;}"
    differing "$stored" "$work/printed"
    head -n 5 "$work/said" | sed 's/^/  said: /'
}

# What the last command said or did besides.
also() { # NAME TEST...
    local called=$1
    shift
    if "$@"; then pass; else fail "./fmap, $called: not so"; fi
}

# The table under "The numbers" in README.md, in the form of docs/numbers.txt.
numbers_of_readme() {
    awk -F ' [|] ' '/^## / { on = $0 == "## The numbers" } on && /^[|] [0-9]+ [|]/ { gsub(/`/, ""); sub(/ [|]$/, ""); printf "%02d %s\n", substr($1, 3), $2 }' "$root/README.md"
}

said() { grep -qF -- "$1" "$work/said"; }
said_not() { ! said "$1"; }
said_lines() { [ "$(wc -l < "$work/said")" = "$1" ]; }
rt_calls() { [ "$(wc -l < "$RT_CALLS")" = "$1" ]; }

without_rt() { PATH=$tools "$copy/fmap" "$@"; }
with_rt() { PATH=$work/fake:$tools "$copy/fmap" "$@"; }
from() { # FILE COMMAND...: the file on standard input
    local file=$1
    shift
    "$@" < "$file"
}
in_folder() { # FOLDER COMMAND...
    (cd "$1" && shift && "$@")
}
full() { "$@" > /dev/full; }
little_stack() { (ulimit -s 1000 && "$@"); }

try_command() {
    local number words each nothing=$work/nothing map=$here/cases/sample.out
    : > "$nothing"
    make_copy
    # a map
    try 'standard input' 0 "$map" '' from "$sample" without_rt
    try 'standard input, by -' 0 "$map" '' from "$sample" without_rt -
    try 'a file' 0 "$map" '' without_rt "$sample"
    cp "$sample" "$work/a name"
    try 'a file with a space in its name' 0 "$map" '' without_rt "$work/a name"
    cp "$sample" "$copy/-x"
    try 'a file that is called -x' 0 "$map" '' in_folder "$copy" without_rt -- -x
    ln -s "$copy/fmap" "$work/linked"
    try 'a link to it, from another folder' 0 "$map" '' in_folder / env PATH="$tools" "$work/linked" "$sample"
    answer_to longest-map > "$work/stored"
    try 'a long map' 0 "$work/stored" '' without_rt "$here/cases/longest-map.frames"
    try 'a newer program than its code, with rt' 0 "$map" '' with_rt "$sample"
    also 'a newer program than its code is not proved again' rt_calls 0
    # a number, of each one the first case
    for each in 01 02 03 04 05 06 07 08 09 10 11 12 13 14 15 16 17; do
        number=$(awk -v number="$each" '$3 == number && $1 !~ /^large/ { print $1; exit }' "$here/list.txt")
        words=$(sed -n "s/^$each //p" "$root/docs/numbers.txt")
        try "R $each, by $number" 1 "$here/cases/$number.out" "fmap: R $each: ${words:-words}" without_rt "$here/cases/$number.frames"
        also "R $each takes one line" said_lines 1
    done
    also 'docs/numbers.txt has 17 lines' test "$(cut -c 1-2 "$root/docs/numbers.txt" | tr '\n' ' ')" = '01 02 03 04 05 06 07 08 09 10 11 12 13 14 15 16 17 '
    also 'README.md has the numbers in the words of docs/numbers.txt' cmp -s "$root/docs/numbers.txt" <(numbers_of_readme)
    # nothing to run
    try 'an unknown argument' 2 "$nothing" 'unknown argument --frames' without_rt --frames
    try 'two files' 2 "$nothing" 'one file at most' without_rt "$sample" "$sample"
    try 'a file that is not there' 2 "$nothing" "cannot read $work/none" without_rt "$work/none"
    try 'an empty name' 2 "$nothing" 'cannot read' without_rt ''
    try 'a folder' 2 "$nothing" "$work is a folder" without_rt "$work"
    try 'an answer that cannot be written' 2 "$nothing" 'cannot write' full without_rt "$sample"
    try 'too little stack' 2 "$nothing" 'is there less than 5 MB of stack' little_stack without_rt "$sample"
    no_program
    try 'no program, and no rt' 2 "$nothing" "rt is not on the PATH, and crates/fmap/out/fmap is not there" without_rt "$sample"
    try 'a file that is not there, and no program' 2 "$nothing" "cannot read" with_rt "$work/none"
    also 'a file that is not there is told before anything is proved' rt_calls 0
    # words about itself, with no program
    sed -n '2,${/^#/!q;s/^# \{0,1\}//p}' "$root/fmap" > "$work/help"
    for each in without_rt with_rt; do
        try "--help, $each" 0 "$work/help" '' $each --help
        also "--help, $each: proves nothing" rt_calls 0
        try "-h, $each" 0 "$work/help" '' $each -h
        $each --version > "$work/version" 2>&1
        try "--version, $each" 0 "$work/version" '' $each --version
        also "--version, $each: proves nothing" rt_calls 0
    done
    also '--help says the statuses' grep -q 'Exit status: 0 a map, 1 a number, 2 nothing could be run' "$work/help"
    also '--version is one line with a number' grep -qx 'fmap of Woqchari [0-9.]*, after decomp-toolkit [0-9a-f]*' "$work/version"
    # what it does with rt
    RT_DOES="cp '$program' out/fmap; echo 'library low: modules loaded=2 checked=0'; echo 'crate fmap: modules loaded=0 checked=9'; echo 'logic=proved functions=2 sum=0'; echo R 01 >&3"
    try 'first use: it is proved' 0 "$map" 'fmap: crates/fmap/out/fmap is not there; it is proved and built first' with_rt "$sample"
    also 'first use: rt run, once, in its folder' grep -qx "$(realpath "$copy")/crates/fmap: rt run" "$RT_CALLS"
    also 'first use: once' rt_calls 1
    also 'progress: the first of three crates' said 'fmap: 1 of 3: low proved'
    also 'progress: a crate that was proved before is not named' said_not middle
    also 'progress: the last of three crates' said 'fmap: 3 of 3: fmap proved'
    also 'progress: not what the prover says' said_not 'modules loaded'
    also 'what the prover says is kept' grep -qx 'fn low::one: proved' "$copy/target/fmap.log"
    try 'second use: nothing is proved' 0 "$map" '' with_rt "$sample"
    touch "$copy/crates/fmap/src/new"
    try 'the code is newer' 0 "$map" 'fmap: the code is newer than crates/fmap/out/fmap' with_rt "$sample"
    try 'the use after that: nothing is proved' 0 "$map" '' with_rt "$sample"
    touch "$copy/crates/fmap/out/kept"
    try 'what rt keeps is no code' 0 "$map" '' with_rt "$sample"
    rm "$copy/crates/fmap/src/new"
    try 'a file of the code was taken away, and no rt' 2 "$nothing" 'rt is not on the PATH, and the code is newer' without_rt "$sample"
    RT_DOES="echo 'crate fmap: modules loaded=0 checked=9'; echo 'logic=not-proved'; exit 1"
    try 'the proof fails, with an older program there' 2 "$nothing" 'fmap: not proved and built, so it is not run' with_rt "$sample"
    also 'the proof fails: which crate' said 'fmap: fmap is not proved'
    no_program
    RT_DOES='true'
    try 'rt ends well, and there is no program' 2 "$nothing" 'there is no crates/fmap/out/fmap' with_rt "$sample"
    # programs that are not the proved one
    fake_program 'kill -SEGV $$'
    try 'a program that is killed' 2 "$nothing" 'ended with the status 139' without_rt "$sample"
    fake_program 'echo R 00; echo F; exit 3'
    try 'a program that ends with a status' 2 "$nothing" 'ended with the status 3' without_rt "$sample"
    fake_program 'true'
    try 'a program that prints nothing' 2 "$nothing" 'printed no number first' without_rt "$sample"
    fake_program 'echo R 18'
    try 'a program that prints a number that is none' 2 "$nothing" 'printed no number first' without_rt "$sample"
    fake_program 'echo "F 00001000"; echo R 00'
    try 'a program that prints a number last' 2 "$nothing" 'printed no number first' without_rt "$sample"
}
