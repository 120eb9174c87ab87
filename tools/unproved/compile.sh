#!/bin/bash
# compile.sh MODULE OUT : compiles a module to OUT/libdoors.a with the flags of `rt lib`
F="--target=x86_64-unknown-linux-gnu -march=x86-64 -mllvm -no-trap-after-noreturn -ffunction-sections -fdata-sections -mllvm -trap-unreachable -mllvm -no-x86-call-frame-opt -mllvm -disable-machine-licm -mllvm -disable-postra-machine-licm -mllvm -sink-common-insts=false --no-default-config -no-canonical-prefixes -fintegrated-cc1 -fno-crash-diagnostics -Wno-override-module"
$KIT/toolchain/bin/clang $F -c -x ir $1 -o $2/n.o -fPIC -O3 || exit 1
rm -f $2/libdoors.a; ar rcs $2/libdoors.a $2/n.o; rm $2/n.o
