#!/bin/sh
# The agent's tests, with all their set-up: the library, its examples, and the command run as a program.
cd "$(dirname "$0")/.." || exit 2
sh scripts/x86_64.sh ready || exit 2
exec sh scripts/x86_64.sh cargo test --release --quiet --offline --manifest-path agent/Cargo.toml
