# How C programs over the library are built; for other scripts, from the repository's root. The archive is x86-64's.
archive=target/staticlib/libraddlebrush.a
c_made=target/c
mkdir -p "$c_made"

# need COMMAND PACKAGE: Debian's package is installed where the command is missing.
need() {
    command -v "$1" >/dev/null && return
    { apt-get install -y "$2" || { apt-get update && apt-get install -y "$2"; }; } >"$c_made/apt.log" 2>&1 || { echo "needs $1 (Debian: $2)"; exit 1; }
}

# The archive, made of the sources as they stand: proved where that is needed, and laid where C programs take it.
c_archive() {
    (cd crates/raddlebrush_c && rt lib) >"$c_made/staticlib.log" 2>&1 || { cat "$c_made/staticlib.log"; exit 1; }
    mkdir -p "$(dirname "$archive")"
    cp crates/raddlebrush_c/out/libraddlebrush_c.a "$archive"
}

# c_object OBJECT SOURCE FLAG..
c_object() {
    local object=$1 source=$2
    shift 2
    "${CC:-cc}" -std=gnu99 -O3 -Wall -Wextra -Iinclude "$@" -c "$source" -o "$object"
}

# c_link PROGRAM OBJECT..: with the archive
c_link() {
    local program=$1
    shift
    "${CC:-cc}" "$@" "$archive" -o "$program"
}
