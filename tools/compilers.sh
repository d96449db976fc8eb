# shellcheck shell=bash
# To be sourced by what links the library, which is for x86-64. `compilers WHO` sets CC, the C compiler, and START, the words that start what
# it makes. On an x86-64 machine these are `cc` and nothing. On another one they are Debian's compiler for x86-64, which is fetched where it is
# missing, and tools/start; `compilers WHO rust` has cargo make and run programs for x86-64 too. It is false, with a sentence, where none is to be had.
compilers() { # WHO [rust]
  local root packages=(gcc-x86-64-linux-gnu libc6-dev-amd64-cross)
  CC=cc START=
  if [ "$HOSTTYPE" = x86_64 ]; then
    command -v cc >/dev/null || { echo "$1: left out, since there is no C compiler"; return 1; }
    return 0
  fi
  root=$(cd -P -- "$(dirname -- "${BASH_SOURCE[0]}")/.." && pwd)
  CC=x86_64-linux-gnu-gcc START=$root/tools/start
  command -v $CC >/dev/null || "$root/.ci/fetch" "${packages[@]}" || true
  command -v $CC >/dev/null || { echo "$1: left out, since the library is for x86-64, this machine is $HOSTTYPE, and Debian's ${packages[0]} could not be installed"; return 1; }
  [ "${2:-}" = rust ] || return 0
  # Debian's emulator, since the kit's does not run what Rust makes
  if [ ! -d /usr/lib/rustlib/x86_64-unknown-linux-gnu ] || ! command -v qemu-x86_64 >/dev/null; then
    dpkg --add-architecture amd64 && "$root/.ci/fetch" rustc-web libstd-rust-web-dev:amd64 qemu-user || true
  fi
  [ -d /usr/lib/rustlib/x86_64-unknown-linux-gnu ] && command -v qemu-x86_64 >/dev/null || {
    echo "$1: left out, since the library is for x86-64, this machine is $HOSTTYPE, and Debian's libstd-rust-web-dev:amd64 and qemu-user could not be installed"
    return 1
  }
  export RUSTC=/usr/bin/rustc RUSTDOC=/usr/bin/rustdoc CARGO_BUILD_TARGET=x86_64-unknown-linux-gnu
  export CARGO_TARGET_X86_64_UNKNOWN_LINUX_GNU_LINKER=$CC CARGO_TARGET_X86_64_UNKNOWN_LINUX_GNU_RUNNER=qemu-x86_64
}

# Whether Python can load the library: not where Python is for another machine than x86-64. Then it is false, with a sentence.
loadable() { # WHO
  [ "$HOSTTYPE" = x86_64 ] || { echo "$1: left out, since the library is for x86-64, and this machine's Python for $HOSTTYPE"; return 1; }
}
