# Makes the two tables of bench/run out of what the programs said: for each row and size the least time of each side.
{
  row = $1 SUBSEP $2
  if (!(row in units)) {
    if (!($1 in known)) {
      names[++count] = $1
      known[$1] = 1
    }
    sizes[$1]++
    units[row] = $3
    unit[row] = $4
    ours[row] = $5
    plain[row] = $6
  }
  if ($5 + 0 < ours[row] + 0) ours[row] = $5
  if ($6 + 0 < plain[row] + 0) plain[row] = $6
}

END {
  printf "%-40s %8s %-7s %13s %13s %7s\n", "at 4096 elements", "units", "", "library ns", "plain C ns", "ratio"
  for (i = 1; i <= count; i++) {
    row = names[i] SUBSEP 4096
    printf "%-40s %8d %-7s %13.2f %13.2f %7.2f\n", names[i], units[row], unit[row], ours[row] / units[row], plain[row] / units[row], ours[row] / plain[row]
  }
  printf "\n%-40s", "whole run, microseconds (ratio)"
  for (size = 512; size <= 4096; size *= 2) printf " %10s%-8d", "n = ", size
  printf "\n"
  for (i = 1; i <= count; i++) {
    if (sizes[names[i]] == 1) continue
    printf "%-40s", names[i]
    for (size = 512; size <= 4096; size *= 2) {
      row = names[i] SUBSEP size
      printf " %10.1f (%5.2f)", ours[row] / 1000, ours[row] / plain[row]
    }
    printf "\n"
  }
}
