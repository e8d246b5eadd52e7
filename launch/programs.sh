# The programs of this repository: where one is kept, whether it is built, and how. To be sourced where `top` is its
# folder.

# The C library takes memory in huge pages of 2 MB where the system has them, and keeps what is freed. The board and
# the report take tens of megabytes, which the system would else hand out 4 KB at a time.
tunables=glibc.malloc.hugetlb=1:glibc.malloc.top_pad=2097152
tunables=$tunables:glibc.malloc.mmap_threshold=33554432:glibc.malloc.trim_threshold=1073741824

say() { echo "crashmap: $*" >&2; }

# program_of NAME [KIND]: where the program of that crate is kept. KIND is `proved`, or `unproved` for one that was
# compiled with checks in place of proofs. The gate empties the folders out/ of the crates, so none is kept there.
program_of() { echo "$top/out/${2-proved}/$1"; }

# is_built NAME [KIND]: whether it is there, and none of its sources has changed since its build began. The file
# NAME.built has the rows of crates.txt that it was built by, so that a change of a crate beside them does not count.
is_built() {
    local program built crate sources=("$top/HANDLES")
    program=$(program_of "$@") built=$(program_of "$@").built
    [ -x "$program" ] && [ -s "$built" ] || return 1
    ! grep -qvxFf "$top/crates.txt" "$built" || return 1
    while IFS=' :' read -r crate _; do
        sources+=("$top/crates/$crate/"{src,specs,proofs})
    done <"$built"
    [ -z "$(find "${sources[@]}" -newer "$built" -print -quit 2>/dev/null)" ]
}

# need_rt: ends with status 2 where the toolchain is missing
need_rt() {
    command -v rt >/dev/null || {
        say "the command rt of the Rattle kit is needed to build the program"
        exit 2
    }
}

# build NAME: proves and builds it, or ends with status 2
build() {
    need_rt
    python3 "$top/launch/prove.py" "$top" "$1" </dev/null || exit 2
}

# names_program: whether CRASHMAP_PROGRAM names a program. The launcher itself is none, since it would call itself.
names_program() { [ -n "${CRASHMAP_PROGRAM:-}" ] && ! [ "$CRASHMAP_PROGRAM" -ef "$top/crashmap" ]; }

# program_to_time: the program that CRASHMAP_PROGRAM names, or else the one that is proved and built here
program_to_time() {
    if [ -z "${CRASHMAP_PROGRAM:-}" ]; then
        is_built crashmap || build crashmap >&2
    fi
    echo "${CRASHMAP_PROGRAM:-$(program_of crashmap)}"
}

# How long a first proof takes from nothing.
first_proof="20 to 60 minutes on four processors"

# need_unproved NAME: says in one line that an unproved program answers. Where none is kept it compiles one first, with
# checks in place of proofs, or ends with status 2.
need_unproved() {
    if is_built "$1" unproved; then
        say "this answer's program was not proved here; ./crashmap --prove proves it once, in $first_proof"
        return
    fi
    need_rt
    say "compiles a program without proofs, in one to four minutes, and keeps it for later answers;" \
        "./crashmap --prove proves it once, in $first_proof"
    python3 "$top/launch/compile.py" "$top" "$1" </dev/null || exit 2
}

# warn_of_long_search: says how to get a faster program, if the options ask for a long search
warn_of_long_search() {
    local option
    for option in ${options[@]+"${options[@]}"}; do
        case $option in
        --search=[4-8])
            say "a search of four operations or more is some hundred times as fast with the proved program;" \
                "./crashmap --prove makes it"
            return
            ;;
        esac
    done
}
