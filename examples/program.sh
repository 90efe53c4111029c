# For the scripts of this folder, which read it: `program` is the word that they were given, else the program that was built here, proved or
# else unproved, else the launcher, which says how one is built.
program=${1:-}
for built in "$here/../crates/romp801/out/romp801" "$here/../out/unproved/romp801" "$here/../romp801"; do
    [ -n "$program" ] || [ ! -x "$built" ] || program=$built
done
program=$(readlink -f "$(command -v "$program")")
