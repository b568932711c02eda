#!/bin/sh
# The sum over all that the program is built from, on standard output: of the names and the contents, in the order of
# names, of crates.txt, HANDLES and each file in src/, specs/ and proofs/ of a crate (those of tests, too). No edit, no
# page and nothing under out/ is in it.
set -eu
cd "$(dirname "$0")/.."
find crates.txt HANDLES crates/*/src crates/*/specs crates/*/proofs -type f | LC_ALL=C sort |
    xargs sha256sum | sha256sum | cut -d ' ' -f 1
