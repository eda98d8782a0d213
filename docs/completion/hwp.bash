# Completion of hwp for bash: `source docs/completion/hwp.bash`. It serves hwp-trace, and both in bin/ too.

_hwp() {
  local current=${COMP_WORDS[COMP_CWORD]} previous=${COMP_WORDS[COMP_CWORD - 1]}
  COMPREPLY=()
  if [[ $current == "<" || $current == ">" ]]; then
    previous=$current
    current=""
  fi
  case $previous in
    "<")
      mapfile -t COMPREPLY < <(compgen -d -- "$current"; compgen -f -X "!*.hwp" -- "$current")
      compopt -o filenames 2> /dev/null
      ;;
    ">")
      mapfile -t COMPREPLY < <(compgen -f -- "$current")
      compopt -o filenames 2> /dev/null
      ;;
    *)
      if ((COMP_CWORD == 1)); then
        local words="step run check gen sum --help --version"
        [[ ${1##*/} == hwp-trace ]] && words="--help --version"
        mapfile -t COMPREPLY < <(compgen -W "$words" -- "$current")
      elif ((COMP_CWORD == 2)) && [[ ${1##*/} == hwp && $previous == @(step|run) ]]; then
        mapfile -t COMPREPLY < <(compgen -W tlb -- "$current")
      fi
      ;;
  esac
}

complete -F _hwp hwp hwp-trace
