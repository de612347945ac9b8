# What bench/run and bench/versions share: where things lie, the machine's line, and the two kinds of memory.
here=$(cd "$(dirname "$0")" && pwd)
top=$(cd "$here/.." && pwd)
if [ -n "${FOLDER:-}" ]; then
    work=$FOLDER
    mkdir -p "$work"
else
    work=$(mktemp -d)
    trap 'rm -rf "$work"' EXIT
fi

# Once with memory as malloc gives it, whose fresh pages the kernel clears and maps as they are first
# touched, and once with memory that malloc keeps and gives again.
kept=glibc.malloc.mmap_max=0:glibc.malloc.trim_threshold=8589934592

# use_memory fresh, use_memory kept: $tunables for a program with this memory.
use_memory() { [ "$1" = fresh ] && tunables= || tunables=$kept; }

# build_bench ROOT NAME: proves and builds a benchmark's crate in the repository at this root.
build_bench() {
    (cd "$1/crates/bench_$2" && ${RT:-rt} run > /dev/null 2> "$work/log") || {
        tail "$work/log" >&2
        exit 1
    }
}

# put_bench FROM ROOT NAME: puts a benchmark's crate, of the folder FROM, into the repository at this root.
put_bench() {
    cat "$1/$3/crate" >> "$2/crates.txt"
    for part in src specs proofs; do
        rm -rf "$2/crates/bench_$3/$part"
    done
    (cd "$1/$3" && find . -name '*.in') | while read -r file; do
        mkdir -p "$2/crates/bench_$3/$(dirname "$file")"
        cp -p "$1/$3/$file" "$2/crates/bench_$3/${file%.in}"
    done
}

# The machine, as a table begins.
tell_machine() {
    echo "$(sed -n 's/^model name.*: //p' /proc/cpuinfo | head -1), $(nproc) cores, load $(cut -d' ' -f1 /proc/loadavg)"
}
