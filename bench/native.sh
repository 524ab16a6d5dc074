#!/bin/sh
# Makes build/native/ours on a machine that isn't x86-64: the library's LLVM module, as the kit makes it, compiled for this machine by the
# kit's own clang, and linked with bench/ours.c by cc. It is there to be timed; the library that ships is target/staticlib/libhost.a alone.
#
# The kit keeps no module. So rt is given a kit of links to the kit (RATTLE_HOME), whose clang first copies the module that it is handed. What is
# proved stays proved: rt's stamps go by the kit's identity and the files, not by the kit's path. The x86-64 library is written as ever.
set -eu
cd "$(dirname "$0")/.."
here=$(uname -m)
[ "$here" != x86_64 ] || { echo "native.sh: this machine is x86-64, and runs the library that ships: make speed" >&2; exit 2; }
kit=$(dirname "$(rt doc)")
made=$PWD/build/native
links=$made/kit/on/$here
rm -rf "$made"
mkdir -p "$links/toolchain/bin"
for f in "$kit"/*; do [ "${f##*/}" = on ] || ln -s "$f" "$made/kit/"; done
for f in "$kit/on/$here"/*; do [ "${f##*/}" = toolchain ] || ln -s "$f" "$links/"; done
ln -s "$(readlink -f "$kit/on/$here/toolchain/lib")" "$links/toolchain/lib"
for f in "$kit/on/$here/toolchain/bin"/*; do [ "${f##*/}" = clang ] || ln -s "$f" "$links/toolchain/bin/"; done
cat >"$links/toolchain/bin/clang" <<END
#!/bin/sh
for word; do case \$word in *.bc | *.ll) cp "\$word" '$made/module.bc' ;; esac; done
exec '$kit/on/$here/toolchain/bin/clang' "\$@"
END
chmod +x "$links/toolchain/bin/clang"
(cd crates/host_c && RATTLE_HOME=$made/kit rt lib)
[ -s "$made/module.bc" ] || { echo "native.sh: the kit's clang was handed no module" >&2; exit 1; }
# the module names its processor, x86-64, which clang then says that it passes over
"$kit/on/$here/toolchain/bin/clang" --target="$here-unknown-linux-gnu" -Wno-override-module -ffunction-sections -fdata-sections \
    -c -x ir "$made/module.bc" -o "$made/module.o" -fPIC -O3
cc -std=c11 -D_POSIX_C_SOURCE=200809L -O3 -Ihost -o "$made/ours" bench/ours.c "$made/module.o"
