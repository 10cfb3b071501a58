# Completions of rcsub for bash.
_rcsub() {
  local word=${COMP_WORDS[COMP_CWORD]}
  COMPREPLY=()
  if [[ $word == -* ]]; then
    mapfile -t COMPREPLY < <(compgen -W '--ignore-case -F --fixed-strings -l --line-by-line -i --in-place -n --dry-run --help -V --version --generate --' -- "$word")
    return
  fi
  mapfile -t COMPREPLY < <(compgen -f -- "$word")
}
complete -o filenames -F _rcsub rcsub
