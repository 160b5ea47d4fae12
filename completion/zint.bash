# Completion of zint for bash: the options, and the values of those that have few.
_zint() {
  local word=$2 last=$3 options values=
  # (bash gives an equals sign as a word of its own)
  [ "$word" != = ] || word=
  [ "$last" != = ] || last=${COMP_WORDS[COMP_CWORD - 2]}
  options='-b -d -i -o --barcode --data --input --output --direct --filetype --esc --binary --gs1 --gs1parens --eci --secure --vers --scale
    --whitesp --vwhitesp --height --structapp --read --erasures --find --scan --demo --seg1 --seg2 --seg3 --seg4 --seg5 --seg6 --seg7 --seg8 --seg9'
  case $last in
    -b | --barcode) values='8 9 16 20 25 70 89 92 128' ;;
    --filetype) values='grid report svg eps bmp' ;;
    --eci) values='3 7 11 17 22 23 25 26 27 899' ;;
    --secure) values='1 2 3 4' ;;
    --scan) values='8 9 20 25 89' ;;
    -i | --input | -o | --output) COMPREPLY=($(compgen -f -- "$word")); return ;;
    -d | --data | --vers | --scale | --whitesp | --vwhitesp | --height | --structapp | --demo | --seg[1-9]) COMPREPLY=(); return ;;
    *) values=$options ;;
  esac
  COMPREPLY=($(compgen -W "$values" -- "$word"))
}
complete -F _zint zint
