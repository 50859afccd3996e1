#!/usr/bin/env bash
# bench/fast.sh OUT [CRATE]: builds the program (or that of another crate) from the sources WITHOUT its proofs and without checks at run time, as OUT, in some three
# processor minutes: so a change can be timed, by PROGRAM=OUT with the other scripts, before it is proved. Such a program is for that alone; ./eventwave never runs it.
# It takes the module that `rt try` makes for LLVM, takes the checks out of it, and has it compiled and linked as the proved one is. This rests on how this kit makes
# its module; where that changes, the script says that it found none.
set -eu
out=$(readlink -f "$1") crate=${2:-eventwave_program}
top=$(cd "$(dirname "$0")/.." && pwd)
kit=$(dirname "$(rt doc)")
room=$(mktemp -d); trap 'rm -rf "$room"' EXIT
clang=$kit/toolchain/bin/clang
mkdir -p "$room/toolchain/bin" "$room/bin"
ln -s "$kit/toolchain/lib" "$room/toolchain/lib"
for tool in "$kit"/toolchain/bin/*; do ln -s "$tool" "$room/toolchain/bin/$(basename "$tool")"; done
rm "$room/toolchain/bin/clang"
# The second module that is compiled is the program's; it is kept, and the try ends there.
cat >"$room/toolchain/bin/clang" <<END
#!/usr/bin/env bash
case " \$* " in *" -fsanitize=address"*) cp module.bc "$room/module.bc"; exit 1 ;; esac
exec -a clang "$clang" "\$@"
END
chmod +x "$room/toolchain/bin/clang"
cp "$kit/bin/rt" "$room/bin/rt"
sed -e "s#f\"{KIT}/toolchain\"\]#\"$room/toolchain\"]#" -e "s#^KIT = .*#KIT = \"$kit\"#" "$kit/bin/rtlib.py" >"$room/bin/rtlib.py"
words=(); [ "$crate" != eventwave_program ] || words=(load 7 --workers 1)
(cd "$top/crates/$crate" && python3 "$room/bin/rt" try -- "${words[@]}" </dev/null >"$room/log" 2>&1) || true
[ -s "$room/module.bc" ] || { tail -n 20 "$room/log" >&2; echo "bench/fast.sh: no module was made" >&2; exit 1; }
compile() { (exec -a clang "$clang" "$@"); }
compile -x ir "$room/module.bc" -S -emit-llvm -o - -O0 -Xclang -disable-llvm-passes |
    grep -v -E 'call void @"rattle-(llvm-checks|try)::|llvm\.memset\.p0\.i64\(ptr %r[0-9]+, i8 -86' >"$room/module.ll"
compile --target=x86_64-unknown-linux-gnu -march=x86-64 -ffunction-sections -fdata-sections -fno-omit-frame-pointer -fPIE -O3 -c -x ir "$room/module.ll" -o "$room/program.o"
"$kit/bin/rattle-link" --target x86_64-unknown-linux-gnu --toolchain "$kit/toolchain" -o "$out" "$room/program.o" "$kit/c/libos_c.a" "$kit/c/liblibc_c.a" >/dev/null
echo "$out"
