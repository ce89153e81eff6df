# Completion of the companions' words, made of their --help by completion/make. For bash: `. completion/cicsedf.bash`.
_cics_names() {  # programs and transactions of the sources and scripts that stand among the words
  local file
  for file in "${COMP_WORDS[@]:1}"; do
    [[ -f $file ]] && sed -nE 's/^([A-Z0-9@#$]{1,8}) +(CSECT|START|DFHEIENT)( .*)?$/\1/p; s/^(SOURCE|TRANSACTION) ([A-Z0-9@#$]+).*/\2/p' "$file"
  done | sort -u
}
_cics_words() {
  local word=${COMP_WORDS[COMP_CWORD]} before=${COMP_WORDS[COMP_CWORD - 1]} options=
  case ${COMP_WORDS[0]##*/} in
    cics-adapt) options="-h --help --version --copy --keep --ebcdic --map --stand-in --bms --file --out --force" ;;
    cics-check) options="-h --help --version --script --explain --marks --watch --json --map --cicslook" ;;
    cics-cover) options="-h --help --version --html --lcov --force --json --at-least --cicslook" ;;
    cics-film) options="-h --help --version -o --map --open --force --cicslook" ;;
    cics-look) options="-h --help --version --keep --keep-typed --cicslook" ;;
    cics-map) options="-h --help --version -o --keys -n --states --one-number --script --tran --queue --json --open --force --cicslook" ;;
    cics-run) options="-h --help --version --key --mixed --tran --queue --fields --script --json --cover --html --lcov --force --film --map --cicslook" ;;
    cics-same) options="-h --help --version --source --shown --screens --orders --choices -n --states --one-number --even-unrun --json --queue --cicslook --cicsedf" ;;
    cics-terminals) options="-h --help --version --resume --back --tran --queue --port --session --mixed --clock --idle --any-user --cicslook" ;;
    cics-test) options="-h --help --version --write --junit --cover --json --watch --jobs --force --cicslook" ;;
  esac
  case $before in
    --explain) mapfile -t COMPREPLY < <(compgen -W "TooLong BadCharacter BadContinuation BadName NoEnd BadOperand ValueOutOfRange NotRelocatable UnknownOperation UndefinedSymbol DuplicateSymbol NoAddressability TooLarge UnknownCommand UnknownOption BadArgument TooManyConditions Conflict MissingOption Memory BadLength EntryOutside StgLength Duplicate Full NoProgram NoRoom RelocOutside Overlap BadLine BadLook note" -- "$word"); return ;;
    --tran|--key|--source) mapfile -t COMPREPLY < <(compgen -W "$(_cics_names)" -- "$word"); return ;;
  esac
  if [[ $word == -* ]]; then
    mapfile -t COMPREPLY < <(compgen -W "$options" -- "$word")
  elif [[ ${COMP_WORDS[0]##*/} == cics-same && $COMP_CWORD == 2 ]]; then
    mapfile -t COMPREPLY < <(compgen -f -W "$(_cics_names)" -- "$word")
  else
    mapfile -t COMPREPLY < <(compgen -f -- "$word")
  fi
}
complete -o filenames -F _cics_words cicsedf cicslook cics-adapt cics-check cics-cover cics-film cics-look cics-map cics-run cics-same cics-terminals cics-test
