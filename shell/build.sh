# Where rt leaves the program $1, and how it is proved and built. Taken in by a script that has set `top`, the repository's own folder.

program_of() {
    printf '%s\n' "$top/crates/$1/out/$1"
}

# Proves and builds the program $1, where that is not done yet. rt builds a program to run it: it is run in its crate's folder, where it finds no file to read,
# and what it prints is thrown away. What rt says comes on standard output.
build_program() {
    (cd -- "$top/crates/$1" && rt run </dev/null 2>&1 >/dev/null)
}
