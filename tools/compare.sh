#!/bin/bash
# Compares the proved library with the rules in ordinary Rust (bench/): answers on random inputs, then the time that both take.
#
#   tools/compare.sh [--inputs N] [--seed N] [--rounds N]
#   tools/compare.sh --short
#
# --short compares a few hundred inputs and takes no times. RT may name another rt.
usage() {
    sed -n '2,7s/^# \{0,1\}//p' "$0" >&2
    exit 2
}

inputs=100000
seed=1
rounds=15
while [ $# -gt 0 ]; do
    case $1 in
        --short) inputs=500 rounds=0; shift ;;
        --inputs | --seed | --rounds)
            case $2 in '' | *[!0-9]*) usage ;; esac
            printf -v "${1#--}" %s "$2"
            shift 2
            ;;
        *) usage ;;
    esac
done

cd "$(dirname "$0")/.." || exit 1
# What is compared is a library that is proved.
tools/staticlib.sh || exit 1
export POLYGON_LIB=$PWD/target/staticlib/libfirmware.a
cargo build --quiet --release --features proved --manifest-path bench/Cargo.toml || exit 1
compare=bench/target/release/compare
"$compare" answers "$inputs" "$seed" || exit 1
[ "$rounds" = 0 ] || "$compare" speed "$rounds"
