# Prints the lines of crates.txt of one crate and of all crates that it stands on, in their order and without comments:
# awk -v name=NAME -f scripts/stands_on.awk crates.txt.
# What a line names that has no line of its own is a library of the toolchain.
{ sub(/#.*/, ""); $1 = $1 }
/:/ {
  crate = $1
  sub(/:.*/, "", crate)
  order[++lines] = crate
  line[crate] = $0
  uses[crate] = substr($0, index($0, ":") + 1)
}
END {
  below = name
  while (split(below, next_ones, " ") > 0) {
    below = ""
    for (i in next_ones) {
      crate = next_ones[i]
      if (crate in line && !(crate in found)) { found[crate]; below = below " " uses[crate] }
    }
  }
  for (i = 1; i <= lines; i++) if (order[i] in found) print line[order[i]]
}
