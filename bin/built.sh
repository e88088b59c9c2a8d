# How it is known that the program `linkage` was built of what the sources say: for bin/linkage, which builds it where it was not,
# and tests/run, in which rt ci builds it. $root is the project's folder.
program=$root/crates/linkage/out/linkage stamp=$root/target/linkage.stamp

# What the program is built of, as one sum: every source, and nothing of what was made of them.
sources() {
    (cd "$root" && find crates.txt crates -path 'crates/*/out' ! -path 'crates/*/*/*' -prune -o \
        \( -name '*.rt' -o -name '*.antt' -o -name crates.txt \) -exec cksum {} + | LC_ALL=C sort | cksum)
}
# Whether it was built of that, and is as it was when it was built.
is_built() { [ -s "$stamp" ] && [ "$(sources) $(cksum 2>/dev/null < "$program")" = "$(sed 1q "$stamp")" ]; }
# Notes that it was built, of sources with this sum.
note_built() { printf '%s %s\n%s\n' "$1" "$(cksum < "$program")" "built with $(rt version)" > "$stamp"; }
