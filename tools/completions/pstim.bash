# Completion of pstim's words for bash: `source` it, or put it into /usr/share/bash-completion/completions/ as pstim.

# The actions that the sources on the line declare, as Component::Action.
_pstim_roots() {
  local word sources=()
  for word in "${COMP_WORDS[@]}"; do [[ $word == *.pss && -r $word ]] && sources+=("$word"); done
  [ ${#sources[@]} -eq 0 ] && sources=(*.pss)
  awk '
    { gsub(/\/\/.*/, ""); gsub(/[{};]/, " & "); count = split($0, part, /[ \t]+/)
      for (at = 1; at < count; at++) {
        if (part[at] == "component") component = part[at + 1]
        if (part[at] == "action" && part[at - 1] != "abstract") print component "::" part[at + 1]
      } }' "${sources[@]}" 2>/dev/null
}

_pstim() {
  local line=${COMP_LINE:0:COMP_POINT} current keys value
  current=${line##*[[:space:]]}
  COMPREPLY=()
  if [ "$COMP_CWORD" -le 1 ]; then
    mapfile -t COMPREPLY < <(compgen -W "run solve check gen static place sweep" -- "$current")
    return
  fi
  case ${COMP_WORDS[1]} in
    run) keys="root= seed= infer= budget= lanes=" ;;
    solve) keys="root= seed= infer= budget=" ;;
    check) keys="root= trace= seed= infer= budget=" ;;
    gen) keys="size= seed= lanes=" ;;
    static) keys="root= seed= infer= budget= over=" ;;
    place) keys="root= space= base= seed= infer= budget=" ;;
    sweep) keys="root= count= first= infer= budget=" ;;
    *) return ;;
  esac
  case $current in
    root=*)
      value=${current#root=}
      mapfile -t COMPREPLY < <(compgen -W "$(_pstim_roots)" -- "$value")
      # Readline takes `:` and `=` for ends of words, so what stands before the last of them is left out.
      case $value in *:*) COMPREPLY=("${COMPREPLY[@]#"${value%"${value##*:}"}"}") ;; esac
      ;;
    trace=*) mapfile -t COMPREPLY < <(compgen -f -- "${current#trace=}") ;;
    infer=*) mapfile -t COMPREPLY < <(compgen -W "0 1 2 3 4 5 6 7 8" -- "${current#infer=}") ;;
    lanes=* | over=*) mapfile -t COMPREPLY < <(compgen -W "$(seq 1 16)" -- "${current#*=}") ;;
    *=*) ;;
    *)
      mapfile -t COMPREPLY < <(compgen -W "$keys" -- "$current"; compgen -f -X '!*.pss' -- "$current"; compgen -d -S / -- "$current")
      case ${COMPREPLY[0]} in *= | */) compopt -o nospace 2>/dev/null ;; esac
      ;;
  esac
}

complete -F _pstim pstim ./pstim
