#!/bin/bash
# prep.sh TREE: the benchmarks of tests/bench, built and not run
set -e
cd $1
export PATH=/root/.cargo/bin:$PATH
folder=$PWD/target/bench; mkdir -p $folder
cp target/staticlib/librtep.a $folder/
objcopy --wildcard --set-section-alignment '.text.*=64' $folder/librtep.a
cd tests/rust
export RTEP_STATICLIB=$folder RUSTFLAGS='-C llvm-args=-align-all-functions=6'
cargo build --release --offline --target-dir $folder/cargo --bins
