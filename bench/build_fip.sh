# Read by the benches of `fip`: makes the folder $work, which goes when they end, and builds $fip.
work=$(mktemp -d)
trap 'rm -rf "$work"' EXIT
(cd crates/fip_prog && rt run -- info - <stdin >"$work/build.log" 2>&1) || { cat "$work/build.log"; exit 1; }
fip=$PWD/crates/fip_prog/out/fip_prog
