# Completion of bash for farm, live, lab, serve, connect and class. Made by tools/commands from what they print for --help.

_nadzsumek_options() {
  case $1 in
    farm) echo '--workers --quantum -h --help --explain --letters --version' ;;
    live) echo '--workers --quantum --record --resume --sync --room --record-room --line-steps --restart-steps -h --help --version' ;;
    lab) echo '-h --help --version' ;;
    lab\ replay) echo '--steps -h --help' ;;
    lab\ plan) echo '-h --help' ;;
    lab\ trace) echo '--boot --program --plan --domain --steps --until --input -h --help' ;;
    lab\ assemble) echo '--listing --pokes -h --help' ;;
    lab\ disassemble) echo '-h --help' ;;
    lab\ occam) echo '--code --listing --pokes --core --sizes --memory -h --help' ;;
    lab\ rows) echo '--steps -h --help' ;;
    lab\ why) echo '--at --program --steps -h --help' ;;
    lab\ film) echo '--from --count --program --json --steps -h --help' ;;
    lab\ expand) echo '-h --help' ;;
    lab\ run) echo '--record --steps -h --help --send --send-to --memory' ;;
    lab\ debug) echo '--program --steps -h --help' ;;
    serve) echo '-h --help --version --workers --quantum --room --record-room --line-steps --restart-steps --mode --group --sync --proved --patience' ;;
    connect) echo '-h --help --version -c --json --unchecked' ;;
    class) echo '-h --help --version --students --nodes --hosts --memory --limit --room --record-room --line-steps --restart-steps --mode --group --proved' ;;
    class\ start) echo '--room --record-room --line-steps --restart-steps --proved' ;;
    class\ serve) echo '--sync --no-web' ;;
    class\ add) echo '--students' ;;
    class\ change) echo '--nodes --hosts' ;;
    class\ finish) echo '--remove' ;;
    class\ check) echo '--csv --html --submitted' ;;
    class\ web) echo '--listen --address --cert --key' ;;
    class\ exercises) echo '--close' ;;
    class\ submitted) echo '--csv' ;;
    class\ marks) echo '--csv' ;;
    class\ wall) echo '--seconds --once' ;;
  esac
}

_nadzsumek_wants_value() {
  case " $(_nadzsumek_values "$1") " in *" $2 "*) return 0 ;; esac
  return 1
}

_nadzsumek_values() {
  case $1 in
    farm) echo '--workers --quantum' ;;
    live) echo '--workers --quantum --record --room --record-room --line-steps --restart-steps' ;;
    lab\ replay) echo '--steps' ;;
    lab\ trace) echo '--boot --program --plan --domain --steps --until --input' ;;
    lab\ assemble) echo '--pokes' ;;
    lab\ occam) echo '--pokes --memory' ;;
    lab\ rows) echo '--steps' ;;
    lab\ why) echo '--at --program --steps' ;;
    lab\ film) echo '--from --count --program --steps' ;;
    lab\ run) echo '--record --steps --send --send-to --memory' ;;
    lab\ debug) echo '--program --steps' ;;
    serve) echo '--workers --quantum --room --record-room --line-steps --restart-steps --mode --group --patience' ;;
    connect) echo '-c' ;;
    class) echo '--students --nodes --hosts --memory --limit --room --record-room --line-steps --restart-steps --mode --group' ;;
    class\ start) echo '--room --record-room --line-steps --restart-steps' ;;
    class\ add) echo '--students' ;;
    class\ change) echo '--nodes --hosts' ;;
    class\ check) echo '--csv --html' ;;
    class\ web) echo '--listen --address --cert --key' ;;
    class\ exercises) echo '--close' ;;
    class\ submitted) echo '--csv' ;;
    class\ marks) echo '--csv' ;;
    class\ wall) echo '--seconds' ;;
  esac
}

_nadzsumek_words() {
  case $1 in
    lab) echo 'replay plan trace assemble disassemble occam rows why film expand run debug' ;;
    class) echo 'start serve stop status add remove change rename finish verify check web exercises submitted marks wall' ;;
  esac
}

# The names of these files, without folder and ending.
_nadzsumek_names() {
  local it
  for it; do
    [ ! -e "$it" ] || { it=${it##*/}; echo "${it%.*}"; }
  done | sort -u
}

_nadzsumek() {
  local command=${COMP_WORDS[0]##*/} word=${COMP_WORDS[COMP_CWORD]} before=${COMP_WORDS[COMP_CWORD-1]} call at plain=() names=
  call=$command
  COMPREPLY=()
  for ((at = 1; at < COMP_CWORD; at++)); do
    if _nadzsumek_wants_value "$call" "${COMP_WORDS[at]}"; then
      at=$((at + 1))
      [ "$at" -lt "$COMP_CWORD" ] || break
      continue
    fi
    case ${COMP_WORDS[at]} in
      -*) ;;
      *)
        plain+=("${COMP_WORDS[at]}")
        case " $(_nadzsumek_words "$command") " in
          *" ${COMP_WORDS[at]} "*) [ ${#plain[@]} != 1 ] || call="$command ${COMP_WORDS[at]}" ;;
        esac
        ;;
    esac
  done
  if [ "$COMP_CWORD" -gt 1 ] && _nadzsumek_wants_value "$call" "$before"; then
    case $before in
      --record) mapfile -t COMPREPLY < <(compgen -d -- "$word") ;;
      --group) mapfile -t COMPREPLY < <(compgen -g -- "$word") ;;
      --workers) mapfile -t COMPREPLY < <(compgen -W "1 2 3 4 5 6 7 8" -- "$word") ;;
      --students | --program | --plan) mapfile -t COMPREPLY < <(compgen -f -- "$word") ;;
    esac
    return 0
  fi
  case $word in
    -*)
      mapfile -t COMPREPLY < <(compgen -W "$(_nadzsumek_options "$call")" -- "$word")
      return 0
      ;;
  esac
  if [ ${#plain[@]} = 0 ]; then mapfile -t COMPREPLY < <(compgen -W "$(_nadzsumek_words "$command")" -- "$word"); fi
  # each user of a farm that is up has a socket in its folder, and each student of a class a sheet
  case $call:${#plain[@]} in
    connect:1) names=$(_nadzsumek_names "${plain[0]%/}"/*.sock "${plain[0]%/}"/*/*.sock) ;;
    class\ change:2 | class\ rename:2 | class\ verify:2 | class\ remove:[2-9]*)
      names=$(_nadzsumek_names "${plain[1]%/}"/sheets/*.txt)
      ;;
  esac
  case $call:${#plain[@]} in
    connect:[1-9]* | class\ add:[2-9]* | class\ change:[2-9]* | class\ rename:[2-9]* | class\ remove:[2-9]* | class\ verify:2)
      mapfile -t COMPREPLY < <(compgen -W "$names" -- "$word")
      return 0
      ;;
  esac
  case $call in
    lab) ;;
    class\ finish | class\ verify) mapfile -t COMPREPLY < <(compgen -f -- "$word") ;;
    connect | class | class\ *) mapfile -t -O "${#COMPREPLY[@]}" COMPREPLY < <(compgen -d -- "$word") ;;
    *) mapfile -t -O "${#COMPREPLY[@]}" COMPREPLY < <(compgen -f -- "$word") ;;
  esac
}

complete -o filenames -F _nadzsumek farm live lab serve connect class
