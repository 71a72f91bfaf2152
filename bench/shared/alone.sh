# alone NAME TREE EXPORTS CRATE..: these crates of a tree, with all that stand below one of them, in a repository of their own, with a crate NAME of
# exports, so that no crate of the gate has them; SIDE in the exports is NAME, BITS is $bits. The repository is made outside this one, since rt ci
# refuses a second crates.txt, and goes again; libNAME.a stays in target/bench/NAME. Wants $root and $out. It runs in a subshell, so that its variables are its own.
alone() (
    name=$1 from=$2 exports=$3
    shift 3
    repository=$(mktemp -d)
    trap 'rm -rf "$repository"' EXIT
    rm -rf "${out:?}/$name"
    mkdir -p "$repository/crates/$name/src" "$out/$name"
    for crate in "$@"; do
        (cd "$from" && tar -cf - --exclude=out "crates/$crate") | (cd "$repository" && tar -xf -)
        grep "^$crate:" "$from/crates.txt" >> "$repository/crates.txt"
    done
    echo "$name staticlib: $*" >> "$repository/crates.txt"
    sed -e "s/SIDE/$name/g" -e "s/BITS/${bits:-}/g" "$exports" > "$repository/crates/$name/src/lib.rt"
    (cd "$repository/crates/$name" && "$root/.ci/in-memory" rt lib >&2)
    cp "$repository/crates/$name/out/lib$name.a" "$out/$name/"
)
