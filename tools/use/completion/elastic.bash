# Completion of elastic for bash, made by tools/house/manual.py: change its table, and say `tools/house/manual.py write`.
_elastic() {
  local current=${COMP_WORDS[COMP_CWORD]} before=${COMP_WORDS[COMP_CWORD - 1]} options=
  COMPREPLY=()
  if [ "$COMP_CWORD" -eq 1 ]; then
    COMPREPLY=($(compgen -W "compile go ref run replay upgrade save resume bench" -- "$current"))
    return
  fi
  case $before in
    --depth|--slots|--workers|--limit|--turns|--at) return ;;
    --delay) compopt -o nospace 2> /dev/null; COMPREPLY=($(compgen -W "logic= mul= div= read= lsq=" -- "$current")); return ;;
  esac
  case ${COMP_WORDS[1]} in
    compile) options="--depth --delay --slots --forward --wrap" ;;
    go) options="--depth --delay --slots --forward --wrap --workers --limit --count --cycles" ;;
    ref) options="--wrap --turns --count" ;;
    run) options="--workers --limit --count --cycles --log" ;;
    replay) options="" ;;
    upgrade) options="" ;;
    save) options="--at" ;;
    resume) options="--limit --count" ;;
    bench) options="" ;;
  esac
  if [[ $current == -* ]]; then
    COMPREPLY=($(compgen -W "$options" -- "$current"))
  else
    compopt -o filenames 2> /dev/null
    COMPREPLY=($(compgen -f -- "$current"))
  fi
}
complete -F _elastic elastic
