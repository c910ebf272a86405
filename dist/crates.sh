# Which crates the program is made of, and the sum of all that it is built from. ./bitview and dist/pack source it, with
# `root` set to the top of the tree.

kit="rattle-kit-13f logic dac8208d650f15bf" # what `rt version` answers for the kit that the proofs are written for

declare -A uses=()   # what each line of crates.txt uses
declare -A placed=() # the crates that have their place in the order
order=()             # the crates that the program needs, each after those that it uses

read_crates() {
    local line name
    while IFS= read -r line || [ -n "$line" ]; do
        line=${line%%#*}
        read -r name _ <<< "${line%%:*}"
        [ -z "$name" ] || uses[$name]=${line#*:}
    done < "$root/crates.txt"
}

# Puts a crate after those that it uses. A name without a line of its own is a library of the kit.
place() {
    local name=$1 used
    [[ -v uses[$name] && ! -v placed[$name] ]] || return 0
    placed[$name]=1
    for used in ${uses[$name]//,/ }; do
        place "$used"
    done
    order+=("$name")
}

# The sum of the kit's name and of all files that the program is built from, whatever their times are.
sum_of_sources() {
    local name paths=()
    for name in "${order[@]}"; do
        paths+=("crates/$name"/{src,specs,proofs})
    done
    (cd -- "$root" && {
        echo "$kit"
        printf '%s\n' "${order[@]}"
        find "${paths[@]}" -type f 2> /dev/null | LC_ALL=C sort | xargs -d '\n' sha256sum
    } | sha256sum | cut -d ' ' -f 1)
}
