# Completion of the words of `pan` for bash. Source it, or put it into the folder of completions under the name `pan`.

_pan() {
  local word=${COMP_WORDS[COMP_CWORD]} before=${COMP_WORDS[COMP_CWORD - 1]}
  local options='--include --max-iteration --max-recursion --most-removed --state --quiet --format --only'
  COMPREPLY=()
  case $before in
    --max-iteration | --max-recursion | --most-removed | --only) return ;;
    --format) mapfile -t COMPREPLY < <(compgen -W 'gcc json' -- "$word"); return ;;
    --include) mapfile -t COMPREPLY < <(compgen -d -- "$word"); return ;;
    --state) mapfile -t COMPREPLY < <(compgen -f -- "$word"); compopt -o filenames 2>/dev/null; return ;;
  esac
  if [[ ${COMP_WORDS[1]} == state && $COMP_CWORD -gt 1 ]]; then
    mapfile -t COMPREPLY < <(compgen -f -- "$word")
    compopt -o filenames 2>/dev/null
  elif [[ ${COMP_WORDS[1]} == format ]]; then
    mapfile -t COMPREPLY < <(compgen -f -W '--check' -- "$word")
    compopt -o filenames 2>/dev/null
  elif [[ $word == -* ]]; then
    if [ "$COMP_CWORD" -eq 1 ]; then options+=' --help --version --prove --release --try'; fi
    mapfile -t COMPREPLY < <(compgen -W "$options" -- "$word")
  elif [[ $COMP_CWORD -eq 1 || ( $COMP_CWORD -eq 2 && $before == -* ) ]]; then
    mapfile -t COMPREPLY < <(compgen -W 'build watch check show blame format impact unused state demo' -- "$word")
  else
    mapfile -t COMPREPLY < <(compgen -d -- "$word")
    compopt -o filenames 2>/dev/null
  fi
}

complete -F _pan pan ./pan
