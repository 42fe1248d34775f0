# Sourced by the scripts that run the proved program vectors: sets vectors to where rt leaves it.

vectors=crates/vectors/out/vectors

if [ ! -x "$vectors" ]; then
    echo "$0: there is no program $vectors; make builds it" >&2
    exit 1
fi
