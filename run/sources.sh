# What the program is built from. ./plc, run/ship and ./check read this file; `root` is the folder of the repository.
# A crate on which neither the program nor a crate of tests stands can land before the program takes it: its line of
# crates.txt isn't looked at.

# The file that tells the sum over the others.
TELLS_SUM=crates/console/src/version.rt

# The crates of the program, and with `tests` those of its tests too.
crates_of() {
    awk -F: -v tests="$1" '
        /^[a-z]/ { sub(/ .*/, "", $1); names[++count] = $1; below[$1] = $2 }
        END {
            needed["plc_main"] = 1
            for (k = count; k > 0; k--) {
                if (tests && names[k] ~ /_tests$/) needed[names[k]] = 1
                if (names[k] in needed) {
                    split(below[names[k]], those, " ")
                    for (i in those) needed[those[i]] = 1
                }
            }
            for (k = 1; k <= count; k++)
                if (names[k] in needed) print names[k]
        }' "$root/crates.txt"
}

# What crates.txt says of these.
lines_of_crates() {
    crates_of tests | awk 'NR == FNR { needed[$1] = 1; next } { name = $1; sub(/:.*/, "", name) } !/^[a-z]/ || name in needed' - "$root/crates.txt"
}

# The files and folders that the program is built from.
sources_of() {
    echo crates.txt HANDLES $(crates_of | sed 's|.*|crates/&/src|')
}

# The sum (SHA-256) over all files that the program is built from, by their names and what stands in them.
sum_of_sources() (
    cd "$root" || exit
    {
        sha256sum HANDLES
        echo "$(lines_of_crates | sha256sum | cut -d ' ' -f 1)  crates.txt"
        find $(crates_of | sed 's|.*|crates/&/src|') -type f ! -path "$TELLS_SUM" -print0 | LC_ALL=C sort -z | xargs -0 sha256sum
    } | sha256sum | cut -d ' ' -f 1
)
