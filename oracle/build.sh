#!/bin/sh
# Builds the oracle, target/release/oracle, and its twin, target-twin/release/oracle (README.md says what they are).
# VAMPIR_SRC names the folder with transform.rs, ast.rs and typecheck.rs of vamp-ir at commit 45fad88e15; by default
# shared/docs/src beside the repository. Needs cargo and the Debian packages that README.md names; no network.
set -e
cd "$(dirname "$0")"
VAMPIR_SRC="$(cd "${VAMPIR_SRC:-../../shared/docs/src}" && pwd)"
export VAMPIR_SRC
# The twin's edits go by line number, so the files must be those of the commit.
(cd "$VAMPIR_SRC" && sha256sum -c -) < sources.sha256
touch build.rs
cargo build --release --offline --locked
cargo build --release --offline --locked --features twin --target-dir target-twin
# What was compiled, newest build: the files, byte by byte.
out="$(ls -td target/release/build/oracle-*/out | head -1)"
for f in transform.rs ast.rs typecheck.rs; do
    cmp "$VAMPIR_SRC/$f" "$out/$f" && echo "compiled unchanged: $f"
done
ls target/release/oracle target-twin/release/oracle
