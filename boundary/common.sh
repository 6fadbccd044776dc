# For the scripts of boundary/ and bench/: they run at the repository's root. Those of boundary/ put what they make under target/boundary.
cd "$(dirname "${BASH_SOURCE[0]}")/.."
made="$PWD/target/boundary"
mkdir -p "$made"
library=target/library/libboundary.a

# install PACKAGE..: Debian's.
install() {
    local as=()
    [ "$(id -u)" = 0 ] || as=(sudo)
    "${as[@]}" apt-get update >/dev/null
    "${as[@]}" apt-get install -y "$@" >/dev/null
}

# need PROGRAM PACKAGE..: installs the packages if there is no such program.
need() { command -v "$1" >/dev/null || install "${@:2}"; }
