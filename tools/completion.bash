# Completion of agcode's words for bash.
_agcode() {
  local word=${COMP_WORDS[COMP_CWORD]} options=
  if [ "$COMP_CWORD" = 1 ]; then
    mapfile -t COMPREPLY < <(compgen -W "bound check decode design encode erase member params points trial votes" -- "$word")
    return
  fi
  case "${COMP_WORDS[1]}" in
    decode) options="--workers= --salvage" ;;
    design) options="--want=" ;;
    trial) options="--seed= --bytes=" ;;
  esac
  case "$word" in
    -*)
      mapfile -t COMPREPLY < <(compgen -W "$options" -- "$word")
      case "${COMPREPLY[*]}" in *=) compopt -o nospace ;; esac
      ;;
    *)
      compopt -o filenames
      mapfile -t COMPREPLY < <(compgen -f -X '!*.toml' -- "$word"; compgen -d -- "$word")
      ;;
  esac
}
complete -F _agcode agcode
