# Sourced by the scripts that time crates, with the scratch folder as the first argument, or none for a new one.
here=$(cd "$(dirname "$0")" && pwd)
root=$(cd "$here/../.." && pwd)
scratch=${1:-$(mktemp -d)}

# build PROGRAM CRATE..: copies these crates, lowest first, into the scratch folder, proves and builds the program
# main.rt.txt over them, and goes to its folder.
build() {
    local program=$1 crate part
    shift
    mkdir -p "$scratch/crates/$program/src"
    cp "$here/main.rt.txt" "$scratch/crates/$program/src/main.rt"
    : > "$scratch/crates.txt"
    for crate; do
        mkdir -p "$scratch/crates/$crate"
        for part in src specs proofs; do
            rm -rf "$scratch/crates/$crate/$part"
            [ ! -d "$root/crates/$crate/$part" ] || cp -r "$root/crates/$crate/$part" "$scratch/crates/$crate/"
        done
        grep "^$crate:" "$root/crates.txt" >> "$scratch/crates.txt"
    done
    echo "$program: $*" >> "$scratch/crates.txt"
    cd "$scratch/crates/$program"
    rt run > run.log 2>&1 || { tail -20 run.log; exit 1; }
}

# seconds COMMAND..: the processor time that it takes, the system's too.
seconds() {
    local TIMEFORMAT='%U %S'
    { time "$@" > /dev/null; } 2>&1 | awk '{ print $1 + $2 }'
}
