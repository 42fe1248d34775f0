# Sourced by the scripts here: sets root (the repository's directory) and archive (the first argument, unless
# it is an option, or else the usual place), takes that argument away, and goes to the root.

root=$(cd "$(dirname "$0")/.." && pwd)

case ${1-} in
'' | --*) archive=$root/target/staticlib/libjeczmilot.a ;;
/*) archive=$1 && shift ;;
*) archive=$PWD/$1 && shift ;;
esac

if [ ! -f "$archive" ]; then
    echo "$0: there is no archive $archive" >&2
    exit 1
fi

cd "$root"
