#!/usr/bin/env bash
# Tries the mutants that the gate leaves out: the prover has to reject each.
#
# usage: mutants.sh [CRATE..]
#
# The mutants of a crate are in crates/CRATE/mutants/, in the form of must-fail edits (`rt help`). For `rt must-fail` they
# are copied beside the crate's must-fail edits, which are tried too, and removed at the end. What is below the crate is
# proved first.
set -euo pipefail
cd "$(dirname "$0")/.."
shopt -s nullglob
copies=()
trap 'rm -f ${copies[@]+"${copies[@]}"}; find crates -name must-fail -empty -delete' EXIT
for crate in "${@:-*}"; do
  for mutant in crates/$crate/mutants/*.edit; do
    folder=${mutant%/mutants/*}/must-fail
    mkdir -p "$folder"
    cp "$mutant" "$folder/"
    copies+=("$folder/${mutant##*/}")
  done
done
rt must-fail "$@"
