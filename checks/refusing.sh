# What the checks that refuse allocations begin with: they go to the top of the repository, and have a folder that is
# removed at their end, with what refuses in it. Needs gcc.
cd "$(dirname "$0")/.."
work=$(mktemp -d)
trap 'rm -rf "$work"' EXIT
gcc -O1 -shared -fPIC -o "$work/refuse.so" checks/refuse.c -ldl
