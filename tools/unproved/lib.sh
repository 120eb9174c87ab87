#!/bin/bash
# Builds OUT/libdoors.a from the checkout ROOT without any proof, to count and to time a form before it is proved.
#
#     tools/unproved/lib.sh ROOT OUT
#
# It catches the LLVM module that `rt try` hands to the compiler, takes the run-time checks out of it and compiles
# it as `rt lib` does: its counts are within 2 in 100 of the proved library's. What lands is measured on that one.
set -e
KIT=$(dirname "$(rt doc)")
export KIT
here=$(cd "$(dirname "$0")" && pwd)
root=$1; out=$2; mkdir -p $out
w=$(mktemp -d); trap 'rm -rf $w' EXIT
mkdir $w/crates; for c in $root/crates/*/; do n=$(basename $c); mkdir $w/crates/$n; for d in src specs proofs; do [ -d $c/$d ] && cp -r $c/$d $w/crates/$n/; done; done; cp $root/crates.txt $w/
mkdir -p $w/crates/bench/src; cp $w/crates/doors/src/*.rt $w/crates/bench/src/; mv $w/crates/bench/src/lib.rt $w/crates/bench/src/main.rt
sed -i 's/staticlib//' $w/crates.txt; grep '^doors' $w/crates.txt | sed 's/^doors *:/bench:/' >> $w/crates.txt
cat >> $w/crates/bench/src/main.rt <<'E2'

fn main() {
    let mut out = [0u8; 64];
    let mut rep = [0u8; 24];
    let mut nums = [0u32; 8];
    let rows = [0u8; 16];
    let text = [0u8; 16];
    let mut r2 = [0u8; 64];
    rl_layout(1, 4, 40, 40, &rows, &text, &mut out, &mut rep);
    rl_layout_source(&text, &rows, &text, &mut out, &mut rep);
    rl_read_sheet(&text, &mut r2, &mut out, &mut rep);
    rl_read_pieces(&text, &mut nums, &mut rep);
    rl_needs_space(1, 2, &mut rep);
}
E2
mkdir -p $w/tc/bin; ln -s $KIT/toolchain/lib $w/tc/lib
for x in ld.lld llvm-ar rattle-x64; do ln -s $KIT/toolchain/bin/$x $w/tc/bin/$x; done
cat > $w/tc/bin/clang <<E3
#!/bin/bash
for a in "\$@"; do if [ -f "\$a" ]; then cp "\$a" "$w/in-\$(basename \$a)"; fi; done
exec $KIT/toolchain/bin/clang "\$@"
E3
chmod +x $w/tc/bin/clang; export TC=$w/tc
python3 $here/try.py $w bench > $w/log 2>&1 || { cat $w/log; exit 1; }
grep -q 'ended status=0' $w/log || { cat $w/log; exit 1; }
CL=$KIT/toolchain/bin/clang
$CL --target=x86_64-unknown-linux-gnu -S -emit-llvm -O0 -x ir $w/in-module.bc -o $w/m.ll
python3 $here/strip.py $w/m.ll $out/n.ll
$here/compile.sh $out/n.ll $out
nm $out/libdoors.a | awk '$2=="T"' | wc -l
