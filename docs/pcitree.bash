# completion of pcitree for bash: source this file. Made by tools/make-man.
_pcitree() {
  local word=${COMP_WORDS[COMP_CWORD]} first=${COMP_WORDS[1]} options= endings= ending
  COMPREPLY=()
  if [ "$COMP_CWORD" = 1 ]; then
    mapfile -t COMPREPLY < <(compgen -W "safe adverse run devices finish generate check fill observe untagged audit report draw waves tree headers combine import help explain --version --help" -- "$word")
    return
  fi
  case $first in
    explain)
      mapfile -t COMPREPLY < <(compgen -W "L1 L2 L3 P1 P2 P3 P4 P5 P6 P7 P8 P9 P10 P11 P12 H1 H2 H3 H4 V1 V2 V3 V4 V5 V6 V7 V8 V9 Q1 Q2 Q3 Q4 Q5 Q6 X1 X2 X3 X4 X5 X6 X7 X8 N1 N2 N3 N4 N5 I1 I2 I3 I4 I5 G1 G2 G3 G4 G5 O1 O2 O3 O4 O5" -- "${word^^}")
      return
      ;;
    help | --help)
      mapfile -t COMPREPLY < <(compgen -W "safe adverse run devices finish generate check fill observe untagged audit report draw waves tree headers combine import help explain --version board trace device log status codes" -- "$word")
      return
      ;;
    safe) options="" endings="board devices" ;;
    adverse) options="" endings="board devices" ;;
    run) options="--steady" endings="board" ;;
    devices) options="" endings="devices" ;;
    finish) options="" endings="trace" ;;
    check) options="" endings="trace" ;;
    fill) options="" endings="trace" ;;
    observe) options="--acts" endings="log" ;;
    untagged) options="" endings="trace" ;;
    audit) options="" endings="trace" ;;
    report) options="" endings="trace" ;;
    draw) options="" endings="trace" ;;
    waves) options="" endings="trace" ;;
    tree) options="" endings="board devices" ;;
    headers) options="" endings="board" ;;
    combine) options="" endings="board" ;;
    generate | --version) return ;;
  esac
  if [ "$COMP_CWORD" = 2 ] || { [ "$COMP_CWORD" = 3 ] && [ "${COMP_WORDS[2]:0:2}" = -- ]; }; then
    # The files that the word reads, and folders; where there are none, or it reads any, all files.
    [ -n "$endings" ] || mapfile -t COMPREPLY < <(compgen -f -- "$word")
    for ending in $endings; do
      mapfile -t -O "${#COMPREPLY[@]}" COMPREPLY < <(compgen -f -X "!*.$ending" -- "$word")
    done
    [ -z "$endings" ] || mapfile -t -O "${#COMPREPLY[@]}" COMPREPLY < <(compgen -d -- "$word")
    [ "${#COMPREPLY[@]}" != 0 ] || mapfile -t COMPREPLY < <(compgen -f -- "$word")
    [ "$COMP_CWORD" = 3 ] || mapfile -t -O "${#COMPREPLY[@]}" COMPREPLY < <(compgen -W "$options" -- "$word")
  elif [ "$first" = adverse ] && [ "$COMP_CWORD" -le 4 ]; then
    # The reads of the unsafe lines of FILE, and then the writes. All of it is compared, and nothing expanded or run.
    local file=${COMP_WORDS[2]//[\\\"\']/} read kind target space address beside write
    [ "${file:0:2}" != '~/' ] || file=$HOME/${file:2}
    [ -f "$file" ] || return
    while IFS=' ' read -r read kind target space address beside write; do
      [ "$kind" = unsafe ] || continue
      if [ "$COMP_CWORD" = 3 ] && [ "${read:0:${#word}}" = "$word" ]; then
        COMPREPLY+=("$read")
      elif [ "$COMP_CWORD" = 4 ] && [ "$read" = "${COMP_WORDS[3]}" ] && [ "${write:0:${#word}}" = "$word" ]; then
        COMPREPLY+=("$write")
      fi
    done < <(pcitree safe "$file" 2>/dev/null </dev/null)
  fi
}
complete -o filenames -F _pcitree pcitree
