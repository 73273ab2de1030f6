# What was made of the sources, and whether it still is what they give. Sourced by cmwq, tools/dist and tools/library,
# with `root` set to the repository.

shipped="$root/dist/x86_64-linux-gnu"

# crates_below CRATE..: these crates and all crates of the repository that they stand on, one a line
crates_below() {
  awk -v names="$*" '
    { sub(/#.*/, "") }
    /:/ {
      split($0, parts, ":")
      split(parts[1], head, " ")
      below[head[1]] = parts[2]
    }
    function add(name, given, many, k) {
      if (!(name in below) || name in found) return
      found[name]
      many = split(below[name], given, " ")
      for (k = 1; k <= many; k++) add(given[k])
    }
    END {
      many = split(names, wanted, " ")
      for (k = 1; k <= many; k++) add(wanted[k])
      for (name in found) print name
    }' "$root/crates.txt" | LC_ALL=C sort
}

# folders_of CRATE..: the folders of the sources of these crates and of those below them, one a line
folders_of() {
  local name part
  for name in $(crates_below "$@"); do
    for part in src specs proofs; do
      if [ -d "crates/$name/$part" ]; then echo "crates/$name/$part"; fi
    done
  done
}

# digest: the SHA-256 of all that dist/ is built from: the lines of crates.txt and the sources of the program, of the
# library for C, and of all crates below them
digest() (
  cd "$root" || exit 1
  export LC_ALL=C
  {
    for name in $(crates_below cmwq cmwq_c); do grep -E "^$name[ :]" crates.txt; done
    # shellcheck disable=SC2046
    find $(folders_of cmwq cmwq_c) -type f -print0 | sort -z | xargs -0 sha256sum
  } | sha256sum | cut -d ' ' -f 1
)

# is_built FILE CRATE: whether the file, a path in the repository, is newer than all that the crate is built from
is_built() (
  cd "$root" || exit 1
  # shellcheck disable=SC2046
  [ -e "$1" ] && [ -z "$(find $(folders_of "$2") crates.txt -type f -newer "$1" -print -quit)" ]
)

# altered: the files in dist/ that are not those that MANIFEST names, one a line
altered() {
  local file sum
  while read -r _ file sum; do
    [ "$(sha256sum "$root/dist/$file" 2> /dev/null | cut -d ' ' -f 1)" = "$sum" ] || echo "dist/$file"
  done < <(grep '^file ' "$root/dist/MANIFEST")
}

# is_shipped: whether dist/ was made from the sources as they are
is_shipped() {
  [ -e "$root/dist/MANIFEST" ] && [ "$(sed -n 's/^sources //p' "$root/dist/MANIFEST")" = "$(digest)" ]
}
