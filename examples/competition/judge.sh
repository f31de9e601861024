# judge.sh: the version of the program, its checksum, and the limits and machines of the runs
cudf_check --version
sha256sum < "$(command -v cudf_check)"
[ ! -e conditions ] || sort -u conditions
