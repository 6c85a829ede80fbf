#!/bin/sh
# native.sh OUT_DIR: OUT_DIR/libdulavimorf.a for this machine, where it is not x86-64.
#
# The compiler writes x86-64 code alone, and a time under an emulator says nothing. So its clang is given a wrapper here that keeps
# the LLVM module which it is handed, and the same clang then compiles that module, with the same flags, for this machine.
# What is measured is then the proved code's own module under another back end, and not the archive that is shipped.
set -eu
top=$(cd "$(dirname "$0")/.." && pwd -P)
out=$1
machine=$(uname -m)
kit=$(dirname "$(rt doc)")
shadow=$out/kit
rm -rf "$out"
mkdir -p "$shadow/toolchain/bin"
out=$(cd "$out" && pwd -P)
shadow=$out/kit
for f in "$kit"/*; do case $f in */bin | */toolchain) ;; *) ln -s "$f" "$shadow/" ;; esac; done
cp -r "$kit/bin" "$shadow/bin"
tools=$kit/toolchain
ln -s "$tools/lib" "$shadow/toolchain/lib"
for f in "$tools"/bin/*; do [ "$(basename "$f")" = clang ] || ln -s "$f" "$shadow/toolchain/bin/"; done
cat >"$shadow/toolchain/bin/clang" <<WRAPPER
#!/bin/sh
for word in "\$@"; do case \$word in *.bc) cp "\$word" "$out/module.bc" ;; esac; done
exec "$tools/bin/clang" "\$@"
WRAPPER
chmod +x "$shadow/toolchain/bin/clang"
(cd "$top/crates/dulavimorf" && "$shadow/bin/rt" lib)
"$tools/bin/clang" --target="$machine-unknown-linux-gnu" -O3 -ffunction-sections -fdata-sections -fPIE -Wno-override-module \
    -mllvm -trap-unreachable -mllvm -no-trap-after-noreturn -Xclang -fmerge-functions -mllvm -mergefunc-use-aliases \
    -c -x ir "$out/module.bc" -o "$out/dulavimorf.o"
"$tools/bin/llvm-ar" rcs "$out/libdulavimorf.a" "$out/dulavimorf.o"
