#!/bin/bash
# Proves the functions for C and puts their archive where docs/C.md says: target/staticlib/libfirmware.a.
cd "$(dirname "$0")/.." || exit 1
(cd crates/firmware_c && "${RT:-rt}" lib) || exit 1
mkdir -p target/staticlib && cp crates/firmware_c/out/libfirmware_c.a target/staticlib/libfirmware.a
