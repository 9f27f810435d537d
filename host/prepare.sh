# What host/test, ./bench and ./desk need; sourced by them, in host/. It brings Debian's packages, cargo, the crate's own sources and
# the static libraries of the proved crates. A part that cannot go on ends in `stop`, which the sourcing script defines.

# packages NAME..: installed where this may be done, named otherwise.
packages() {
    local package log missing=()
    for package in "$@"; do
        dpkg-query -W -f '${Status}' "$package" 2>/dev/null | grep -q 'install ok installed' || missing+=("$package")
    done
    [ ${#missing[@]} -gt 0 ] || return 0
    if [ "$(id -u)" -ne 0 ] || ! command -v apt-get >/dev/null 2>&1; then
        stop "install these Debian packages: ${missing[*]}"
    fi
    echo "installing ${missing[*]}"
    log=$(mktemp)
    { apt-get update && DEBIAN_FRONTEND=noninteractive apt-get install -y --no-install-recommends "${missing[@]}"; } \
        >"$log" 2>&1 || { tail -n 20 "$log"; stop "could not install ${missing[*]}"; }
    rm -f "$log"
}

# find_cargo: puts cargo on the PATH, and lets both workspaces build into target/, unless CARGO_TARGET_DIR names another folder.
find_cargo() {
    # Rust's installer puts cargo below the home folder, which is not on every PATH.
    HOME=${HOME:-$(getent passwd "$(id -u)" | cut -d: -f6)}
    export HOME
    command -v cargo >/dev/null 2>&1 || export PATH="${CARGO_HOME:-$HOME/.cargo}/bin:$PATH"
    command -v cargo >/dev/null 2>&1 || stop "cargo is missing: install Rust"
    export CARGO_TARGET_DIR=${CARGO_TARGET_DIR:-$PWD/target}
}

# cargo_over_debian: finds cargo, and writes target/debian.toml, by which it takes crates from Debian's packages alone.
cargo_over_debian() {
    local manifest
    find_cargo
    # The folder in which the packages put their crates, as the package manager tells it.
    manifest=$(dpkg -L librust-lru-dev | grep -E '/lru-[^/]*/Cargo\.toml$' | head -n 1)
    [ -n "$manifest" ] || stop "librust-lru-dev holds no crate"
    mkdir -p target
    cat >target/debian.toml <<END
[source.crates-io]
replace-with = "debian"
[source.debian]
directory = "$(dirname "$(dirname "$manifest")")"
[net]
offline = true
END
}

# redis_sources: sets REDIS_SOURCES to the folder of the crate's own sources; fails where they are not there.
redis_sources() {
    REDIS_SOURCES=${REDIS_SOURCES:-$PWD/../../shared/docs/src}
    [ -d "$REDIS_SOURCES/src/caching" ] || return 1
    REDIS_SOURCES=$(cd "$REDIS_SOURCES" && pwd)
    export REDIS_SOURCES
}

# static_library NAME: proves the crate and writes target/staticlib/libNAME.a; fails where the Rattle kit is missing.
static_library() {
    local log
    command -v rt >/dev/null 2>&1 || return 1
    log=$(mktemp)
    ../staticlib "$1" >"$log" 2>&1 || { tail -n 20 "$log"; stop "./staticlib $1 failed"; }
    rm -f "$log"
}
