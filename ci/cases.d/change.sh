# change OFFSET BYTES: writes the movie one.a26m as changed.a26m, with other bytes there, written as printf has them.
change() {
    cp one.a26m changed.a26m
    printf "$2" | dd of=changed.a26m bs=1 seek="$1" conv=notrunc status=none
}

# masks PAGE: prints the place, the mask and the name of each number of a state record that has a mask.
masks() { sed -nE 's/^\| ([0-9]+) \| ([^|]+) \| mask `(..)`.*/\1 \3 \2/p' "$1"; }
