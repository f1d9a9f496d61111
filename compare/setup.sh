# Read by compare/run and bench/run: names the Rust's folder, which is $1, and the folder of the archive, which is built
# where that is due.
GOREMBIIN_RUST=$(CDPATH='' cd -- "$1" && pwd)
archive=$("$here/../tools/archive")
GOREMBIIN_ARCHIVE=${archive%/*}
export GOREMBIIN_RUST GOREMBIIN_ARCHIVE
