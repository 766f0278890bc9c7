# Read by ../../check and ../../rv_sim, which set top to the root of the repository: where the proved program stands, and whether it is
# that of the sources. A test, a document or a must-fail edit is no source of it. Beside it stand the libraries that it was proved over.
program=$top/crates/rv_sim/out/rv_sim
libraries=$top/crates/rv_sim/out/libraries

newer_sources() {
  find "$top/crates.txt" "$top"/crates/*/{src,specs,proofs} \
    -path '*_tests/*' -prune -o -type f -newer "$program" -print -quit 2>/dev/null
}

# is_proved: whether there is such a program
is_proved() {
  [ -x "$program" ] && [ -z "$(newer_sources)" ]
}
