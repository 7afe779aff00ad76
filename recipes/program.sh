# shellcheck shell=sh disable=SC2154
# Read by the recipes: sets `program` to agcode, and has what several of them say. The program is PROGRAM where it is set, else the
# one that is built or installed beside the recipes, else the one on the PATH. $here is the folder of the recipes.
program=${PROGRAM:-}
for place in "$here/../crates/agcode_cli/out/agcode_cli" "$here/../../../bin/agcode" "$(command -v agcode || true)"; do
  if [ -z "$program" ] && [ -x "$place" ]; then program=$place; fi
done
if [ ! -x "$program" ]; then
  echo "$(basename "$0"): there is no program agcode: ./demo builds it, or PROGRAM names it" >&2
  exit 1
fi

# lost REPORT: the codewords that a report of a salvage names as lost, the first four of them, and how many more there are.
lost() {
  awk '$1 == "lost" { if (++all <= 4) said = said (all > 1 ? ", " : "") "codeword " $3 " of group " $2 }
    END { print said (all > 4 ? " and " all - 4 " more" : "") }' "$1"
}

# not_decoded STATUS DESC STORED TARGET REPORT: says why `decode DESC < STORED > TARGET 2> REPORT`, with --salvage or without, gave no
# whole file, and what gives back the rest.
not_decoded() {
  name=$(basename "$0")
  told=$(tail -n 1 "$5" 2> /dev/null || true)
  case "$1" in
    3 | 4) echo "$name: $3: $told: bytes are missing or were added, or $2 is another descriptor than the one that encoded" >&2 ;;
    2) echo "$name: $3: beyond repair: codeword ${told##* } of group $(echo "$told" | cut -d ' ' -f 2), and perhaps later ones" >&2 ;;
    7) echo "$name: $3: beyond repair: $(lost "$5")" >&2 ;;
    65 | 70) echo "$name: $2: $told" >&2 ;;
    72) echo "$name: $4: output not written" >&2 ;;
    73) echo "$name: $5: report not written" >&2 ;;
    *) echo "$name: $3: ${told:-status $1}" >&2 ;;
  esac
  case "$1" in
    2 | 3 | 4 | 7)
      echo "$name: to get back the rest: agcode decode --salvage $2 < $3 > FILE 2> REPORT" >&2
      echo "$name: and which of its bytes are doubtful: $(dirname "$0")/doubtful $2 REPORT" >&2 ;;
  esac
}

# is_sum STORED FILE: whether FILE has the sum that was kept beside STORED.
is_sum() { [ "$(sha256sum < "$2" | cut -d ' ' -f 1)" = "$(cut -d ' ' -f 1 "$1.sha256")" ]; }
