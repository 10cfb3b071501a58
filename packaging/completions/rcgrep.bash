# Completions of rcgrep for bash.
_rcgrep() {
  local word=${COMP_WORDS[COMP_CWORD]}
  COMPREPLY=()
  if [[ $word == -* ]]; then
    mapfile -t COMPREPLY < <(compgen -W '-e --regexp -f --file -E --extended-regexp -F --fixed-strings --stated -i --ignore-case -S --smart-case -w --word-regexp -x --line-regexp -v --invert-match -U --multiline -c --count -l --files-with-matches -L --files-without-match -q --quiet -s --no-messages -o --only-matching --replace -n --line-number -b --byte-offset --column -h --no-filename -H --with-filename -Z --null --label -m --max-count --color --line-buffered --json --stats -A --after-context -B --before-context -C --context -r --recursive -R --dereference-recursive --include --exclude --exclude-dir --hidden -z --null-data -a --text -I --no-binary --help -V --version --generate --' -- "$word")
    return
  fi
  mapfile -t COMPREPLY < <(compgen -f -- "$word")
}
complete -o filenames -F _rcgrep rcgrep
