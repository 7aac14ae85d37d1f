# Sourced by scripts: tells which of the commands they need are missing, with Debian's package of each, and ends them with status 1.
PATH="$PATH:$HOME/.cargo/bin"
missing=
need() {
    command -v "$1" >/dev/null || missing+="  $1 ($2)"$'\n'
}
need rt "the Rattle toolchain"
need python3 "package python3"
need cargo "package cargo"
need cc "package gcc"
need c++ "package g++"
need objcopy "package binutils"
if [ -n "$missing" ]; then
    printf 'missing commands:\n%s' "$missing" >&2
    exit 1
fi
