# Where the proved program is kept, and how it is built. ./alto and .ci/run read this file; they set $top to the
# repository's top folder first.
#
# A program that was built is the file out/alto/SUM. SUM is the checksum of the toolchain's name and of all that the
# program is made from, so that a file of that name is always the program of the sources as they stand.

kept=$top/out/alto

# Prints the toolchain's one-line name, as `rt version` does. The file that holds it is read here, since that is
# quicker.
toolchain() {
    rt=$(command -v rt) && rt=$(readlink -f -- "$rt") || return
    cat -- "${rt%/*}/../KIT-ID" 2>/dev/null || rt version
}

# Prints the checksum that names the program of the sources as they stand.
sources_sum() (
    cd -- "$top" || exit
    {
        toolchain
        find crates.txt HANDLES crates/*/src crates/*/specs crates/*/proofs -type f -print0 2>/dev/null |
            LC_ALL=C sort -z | xargs -0 sha256sum
    } | sha256sum | cut -c 1-64
)

# Keeps the program FILE under the checksum SUM, in place of those of other sources: keep_program SUM FILE.
keep_program() {
    mkdir -p -- "$kept" && cp -- "$2" "$kept/new.$$" && chmod 755 "$kept/new.$$" && mv -f -- "$kept/new.$$" "$kept/$1" || return
    for old in "$kept"/*; do
        case ${old##*/} in
        "$1" | lock | log | new.*) ;;
        *) rm -f -- "$old" ;;
        esac
    done
}

# Proves and builds the program of the sources as they stand, where another run hasn't done so meanwhile. All that it
# says goes to standard error, and stands in out/alto/log.
build_program() (
    say() { printf 'alto: %s\n' "$1" >&2; }
    exec </dev/null
    mkdir -p -- "$kept" && exec 9>"$kept/lock" && flock 9 || { say "can't write in $kept"; exit 1; }
    sum=$(sources_sum)
    [ -x "$kept/$sum" ] && exit
    name=$(toolchain) || { say "the command rt of the Rattle toolchain isn't in PATH"; exit 1; }
    say "proving and building the program with $name; from nothing this takes minutes"

    # The libraries come first, side by side, and rt run builds the program over them. It runs what it has built: here
    # with no words, which the program refuses, so its output and its status are passed over. Only the line that rt
    # prints before that says that all is proved and built.
    (
        unset RT_BACKEND
        cd -- "$top/crates/alto_cli" && "$top/tools/build-libraries" . && rt run
    ) 2>&1 >/dev/null 9>&- | tee -- "$kept/log" 9>&- >&2
    grep -q '^rt: running out/alto_cli;' "$kept/log" || { say "the program isn't proved and built: see $kept/log"; exit 1; }
    [ "$(sources_sum)" = "$sum" ] || { say "the sources changed while they were proved: run it again"; exit 1; }
    keep_program "$sum" "$top/crates/alto_cli/out/alto_cli" || { say "can't write in $kept"; exit 1; }
)

# Prints the path of the program of the sources as they stand, which is built first where it isn't there.
program_path() {
    sum=$(sources_sum)
    [ -x "$kept/$sum" ] || { build_program && sum=$(sources_sum) && [ -x "$kept/$sum" ]; } || return
    printf '%s\n' "$kept/$sum"
}
