# Completion of zt for bash: the command's name first, then files and its options.
_zt() {
  local word=${COMP_WORDS[COMP_CWORD]}
  if [ "$COMP_CWORD" -eq 1 ]; then
    mapfile -t COMPREPLY < <(compgen -W "$(zt --commands 2>/dev/null) --help --version" -- "$word")
  elif [ "${word:0:1}" = - ]; then
    mapfile -t COMPREPLY < <(compgen -W '--json --layout --first-layout --second-layout --room --escaped --plan --page --ceiling --output --help' -- "$word")
  else
    compopt -o filenames
    mapfile -t COMPREPLY < <(compgen -f -- "$word")
  fi
}
complete -F _zt zt
