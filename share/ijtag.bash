# Completion of both programs for bash, made from docs/MANUAL.md and docs/TOOLS.md by .ci/words.py. Use it by:  . share/ijtag.bash

# completes a word of a command that has words of these kinds
_ijtag_word() {
  local current=${COMP_WORDS[COMP_CWORD]} kinds=("$@") kind at icl= pdl= formats='text json'
  [ "${COMP_WORDS[1]}" = picture ] && formats='svg dot'
  kind=${kinds[COMP_CWORD - 2]:-}
  for at in "${!kinds[@]}"; do
    [ "${kinds[at]}" = ICL ] && icl=${COMP_WORDS[at + 2]:-}
    [ "${kinds[at]}" = PDL ] && pdl=${COMP_WORDS[at + 2]:-}
  done
  case $kind in
    FORMAT) mapfile -t COMPREPLY < <(compgen -W "$formats" -- "$current") ;;
    KIND) mapfile -t COMPREPLY < <(compgen -W 'pins state all' -- "$current") ;;
    HOW) mapfile -t COMPREPLY < <(compgen -W 'full lean late' -- "$current") ;;
    ICL | PDL | DEVICE | TABLES | SVF | NEW | STEM) mapfile -t COMPREPLY < <(compgen -f -- "$current") ;;
    TOP) mapfile -t COMPREPLY < <(compgen -W "$(sed -n 's/^[[:blank:]]*Module[[:blank:]]*\([[:alnum:]_]*\).*/\1/p' "$icl" 2> /dev/null)" -- "$current") ;;
    PROC) mapfile -t COMPREPLY < <(compgen -W "$(sed -n 's/^[[:blank:]]*iProc[[:blank:]][[:blank:]]*\([[:alnum:]_]*\).*/\1/p' "$pdl" 2> /dev/null)" -- "$current") ;;
  esac
}

_ijtag() {
  local current=${COMP_WORDS[COMP_CWORD]} kinds=()
  COMPREPLY=()
  if [ "$COMP_CWORD" = 1 ]; then
    mapfile -t COMPREPLY < <(compgen -W 'compile play run direct audit make muxtest migrate' -- "$current")
    return
  fi
  case ${COMP_WORDS[1]} in
    compile) kinds=(ICL PDL DEVICE TOP PROC SVF) ;;
    play) kinds=(SVF ICL DEVICE TABLES TOP) ;;
    run) kinds=(ICL PDL DEVICE TABLES TOP PROC SVF) ;;
    direct) kinds=(ICL PDL DEVICE TABLES TOP PROC) ;;
    audit) kinds=(SVF ICL PDL DEVICE TOP PROC) ;;
    make) kinds=(SEED SIZE STEM) ;;
    muxtest) kinds=(ICL DEVICE TOP SVF) ;;
    migrate) kinds=(TABLES NEW) ;;
  esac
  _ijtag_word "${kinds[@]}"
}
complete -o filenames -F _ijtag ijtag ./ijtag

_ijtag_tools() {
  local current=${COMP_WORDS[COMP_CWORD]} kinds=()
  COMPREPLY=()
  if [ "$COMP_CWORD" = 1 ]; then
    mapfile -t COMPREPLY < <(compgen -W 'list explain where picture tighten wave' -- "$current")
    return
  fi
  case ${COMP_WORDS[1]} in
    list) kinds=(FORMAT ICL DEVICE TOP) ;;
    explain) kinds=(SVF ICL DEVICE TABLES TOP NEW) ;;
    where) kinds=(SVF ICL DEVICE TABLES TOP SCAN BIT) ;;
    picture) kinds=(FORMAT ICL DEVICE TOP NEW SVF TABLES SCAN) ;;
    tighten) kinds=(HOW ICL PDL DEVICE TOP PROC NEW) ;;
    wave) kinds=(KIND SVF ICL DEVICE TABLES TOP NEW FROM COUNT) ;;
  esac
  _ijtag_word "${kinds[@]}"
}
complete -o filenames -F _ijtag_tools ijtag-tools ./ijtag-tools
