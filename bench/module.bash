# The program as one module of LLVM's, for builds that the gate does not make; sourced. It wants the crates below the program
# built in this tree (rt ci), and takes two minutes.
kit=$(dirname "$(rt doc)")
clang=$kit/toolchain/bin/clang

# module FOLDER: proves the program, has it compiled by a toolchain whose clang keeps what it is given, and writes
# FOLDER/module.ll.
module() {
  local folder=$1 name crates externs=()
  mkdir -p "$folder/toolchain/bin"
  ln -s "$kit/toolchain/lib" "$folder/toolchain/lib"
  ln -s "$kit"/toolchain/bin/* "$folder/toolchain/bin/"
  rm "$folder/toolchain/bin/clang"
  cat >"$folder/toolchain/bin/clang" <<END
#!/usr/bin/env bash
for word in "\$@"; do case \$word in *.bc) cp "\$word" '$folder/module.bc' ;; esac; done
exec '$clang' "\$@"
END
  chmod +x "$folder/toolchain/bin/clang"
  crates=$(sed -n 's/^insar_unwrap: *//p' "$top/crates.txt")
  for name in $crates; do externs+=(--extern "$name=$top/crates/$name/out/rlib/$name.rlib"); done
  for name in "$top"/crates/*/out/rlib; do externs+=(-L "dependency=$name"); done
  local words=(--crate-name insar_unwrap src/main.rt --extern "std=$kit/rlibs/std.rlib" "${externs[@]}"
    -L "dependency=$kit/rlibs" --antt-project "$kit/rattle/logic/antt-project.json" --links insar_unwrap=)
  (
    cd "$top/crates/insar_unwrap"
    "$kit/bin/rattle" check "${words[@]}" --logic-built "$kit/logic_built" --jobs 1 -o "$folder/checked"
    "$kit/bin/rattle" build "${words[@]}" --crate-checked "$folder/checked" \
      --toolchain "$folder/toolchain" --backend llvm -o "$folder/program.o"
  ) >"$folder/log" 2>&1 || { tail -n 20 "$folder/log"; return 1; }
  "$clang" --target=x86_64-unknown-linux-gnu -march=x86-64 -S -emit-llvm -O0 -Xclang -disable-llvm-passes \
    -Wno-override-module -x ir "$folder/module.bc" -o "$folder/module.ll"
}

# archives: the C code of the kit that each program is linked with.
archives() { echo "$kit/c/libos_c.a" "$kit/c/liblibc_c.a"; }
