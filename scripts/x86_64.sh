#!/bin/sh
# Builds and runs Rust programs for x86-64, the only machine that the port's archive is written for.
# On an x86-64 machine this is plain cargo. On Arm it takes Debian's Rust with its amd64 library, and qemu runs what was built.
#   sh scripts/x86_64.sh setup            installs what the build needs (as root, on Debian); on x86-64 nothing
#   sh scripts/x86_64.sh ready            sets up where something is missing, and is silent where nothing is
#   sh scripts/x86_64.sh cargo WORDS..    cargo, for x86-64
#   sh scripts/x86_64.sh exec PROGRAM..   runs a program that was built so
set -e
task=$1
[ $# -gt 0 ] && shift
target=x86_64-unknown-linux-gnu

here() { command -v "$1" >/dev/null; }

native() { [ "$(uname -m)" = x86_64 ]; }

fail() {
  echo "$1" >&2
  exit 2
}

# Whether there is a cargo that reads the command's manifest: one that is older than its edition does not, such as Debian's own.
cargo_reads() { here cargo && cargo read-manifest --manifest-path "$(dirname "$0")/../agent/Cargo.toml" >/dev/null 2>&1; }

# What is installed where the machine is not x86-64: Rust and its library, a linker, and the emulator.
packages() {
  cargo_reads || printf 'cargo-web '
  echo rustc-web libstd-rust-web-dev:amd64 gcc-x86-64-linux-gnu libc6-dev-amd64-cross qemu-user libc6:amd64 libgcc-s1:amd64
}

setup() {
  # shellcheck disable=SC2046
  dpkg --add-architecture amd64 && apt-get update -qq && apt-get install -y --no-install-recommends $(packages)
}

# Whether a program can be built for x86-64 and run.
equipped() {
  if native; then
    here cargo && here cc
  else
    cargo_reads && here x86_64-linux-gnu-gcc && here qemu-x86_64 && [ -e /lib64/ld-linux-x86-64.so.2 ] &&
      debian_rust rustc >/dev/null 2>&1 && dpkg -L libstd-rust-web-dev:amd64 >/dev/null 2>&1
  fi
}

debian_rust() { dpkg -L rustc-web | grep "bin/$1\$"; }

# Where something is missing: installs it, if that is possible here.
ready() {
  equipped && return
  native && fail 'Rust is needed: cargo and a C linker (cc). See https://rustup.rs, or install your system'\''s packages.'
  here apt-get && here dpkg || fail 'This machine is not x86-64. The x86-64 Rust and the emulator (qemu) can be installed by this script on Debian alone.'
  [ "$(id -u)" = 0 ] || fail 'This machine is not x86-64, and the x86-64 Rust and the emulator (qemu) are not installed. Run this once as root: sh scripts/x86_64.sh setup'
  echo "The reader's code is x86-64, and this machine is $(uname -m). Installing what builds and runs it, once for each machine: $(packages) ..." >&2
  log=$(mktemp)
  if ! setup >"$log" 2>&1; then
    cat "$log" >&2
    rm -f "$log"
    fail 'The x86-64 Rust and the emulator could not be installed.'
  fi
  rm -f "$log"
  equipped || fail 'All was installed, and still something is missing: one of cargo, rustc-web, libstd-rust-web-dev:amd64, x86_64-linux-gnu-gcc, qemu-x86_64.'
}

case $task in
  setup) native || setup ;;
  ready) ready ;;
  cargo)
    if ! native; then
      RUSTC=$(debian_rust rustc)
      RUSTDOC=$(debian_rust rustdoc)
      export RUSTC RUSTDOC
      export CARGO_BUILD_TARGET=$target
      export CARGO_TARGET_X86_64_UNKNOWN_LINUX_GNU_LINKER=x86_64-linux-gnu-gcc
      export CARGO_TARGET_X86_64_UNKNOWN_LINUX_GNU_RUNNER=qemu-x86_64
    fi
    exec cargo "$@" ;;
  exec)
    native && exec "$@"
    exec qemu-x86_64 "$@" ;;
  *) sed -n 's/^#   //p' "$0" >&2; exit 2 ;;
esac
