#!/bin/sh
# sweep.sh PROGRAM: what `PROGRAM measure` counts of the stencil on sixteen leaves, on one bus and on two levels of buses, over
# ways and places of a leaf. A line for each machine: how its run ended, how often all parts of the tree had a turn on average, and what
# the buses granted.
program=$1
folder=$(mktemp -d)
echo "# shape ways sets places end rounds granted top reads erases injects busy"
for shape in "(LLLLLLLLLLLLLLLL)" "((LLLL)(LLLL)(LLLL)(LLLL))"; do
  # The turns of the tree: a hart's for each leaf, a Down for each bus, and a Request, a Reply and a Leave for each child of a bus.
  case $shape in "(L"*) turns_of_tree=65 ;; *) turns_of_tree=81 ;; esac
  for ways in 1 2 4; do
    for places in 48 64 96 128 192 256; do
      sets=$((places / ways))
      sed "s/^shape = .*/shape = \"$shape\"/; s/^ways = .*/ways = $ways/; s/^sets = .*/sets = $sets/" sixteen_leaves.toml > "$folder/tree"
      "$program" measure image "$folder/tree" even 1 1000000 > "$folder/measured" || exit
      awk -v machine="$shape $ways $sets $places" -v parts=$turns_of_tree '
        # The number after a word in this line.
        function after(word,  k) { for (k = 1; k < NF; k++) if ($k == word) return $(k + 1) }
        $1 == "end" && NF > 1 { end = $2 }
        $1 == "turns" { rounds = after("drawn") / parts; granted = after("granted"); busy = after("busy") }
        $1 == "hart" { reads += after("reads"); erases += after("erases") }
        $1 == "bus" { injects += after("inject") }
        $1 == "bus" && $2 == 0 { top = $4 + $6 + $8 + $10 + $12 + $14 }
        END { printf "%s %s %d %d %d %d %d %d %d\n", machine, end, rounds, granted, top, reads, erases, injects, busy }
      ' "$folder/measured"
    done
  done
done
rm -r "$folder"
