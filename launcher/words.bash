# What the launcher adds to the program: help, the version, and the line that says what a word is.
# It stands on `root`, `program` and `say` of the launcher, and on `words` of running.bash.
# shellcheck disable=SC2154

help_folder=$root/launcher/help
guide_line="The guide: $root/docs/GUIDE.md"

# The commands with their words; or the words of one command.
show_help() {
  local topic=${1-commands}
  if [ $# -gt 1 ] || [ "$topic" != "${topic//\//}" ] || [ ! -f "$help_folder/$topic.txt" ]; then
    say "help is there for draw, info, serve and trial, one at a time"
    exit 2
  fi
  cat -- "$help_folder/$topic.txt" && printf '\n%s\n' "$guide_line" || exit 1
}

# The kit's line, and the commit where this folder is the repository's.
version() {
  local kit='' commit=''
  if command -v rt >/dev/null; then kit=$(rt version 2>/dev/null </dev/null | head -n 1); fi
  # shellcheck disable=SC2016
  [ -n "$kit" ] || kit=$(sed -n 's/^- The toolchain `\([^`]*\)`.*/\1/p' "$root/README.md")
  printf '%s\n' "${kit:-kit unknown}" || exit 1
  if [ -e "$root/.git" ] && commit=$(git -C "$root" rev-parse HEAD 2>/dev/null); then
    git -C "$root" diff --quiet HEAD 2>/dev/null || commit="$commit, with changes"
    printf 'commit %s\n' "$commit" || exit 1
  fi
}

# Byte by byte, since the bounds of the ranges below are bytes.
is_utf8() {
  local LC_ALL=C
  local tail=$'[\x80-\xbf]' text=$'[\x01-\x7f]'
  text+=$'|[\xc2-\xdf]'$tail$'|\xe0[\xa0-\xbf]'$tail$'|[\xe1-\xec\xee\xef]'$tail$tail$'|\xed[\x80-\x9f]'$tail
  text+=$'|\xf0[\x90-\xbf]'$tail$tail$'|[\xf1-\xf3]'$tail$tail$tail$'|\xf4[\x80-\x8f]'$tail$tail
  [[ $1 =~ ^($text)*$ ]]
}

# A word in quotes; one with bytes that a terminal may act on, as the shell writes it.
quoted() {
  local LC_ALL=C
  if ! is_utf8 "$1" || [[ $1 =~ [$'\x01'-$'\x1f'$'\x7f'\'] || $1 =~ $'\xc2'[$'\x80'-$'\x9f'] ]]; then
    printf '%q' "$1"
  else
    printf "'%s'" "$1"
  fi
}

# Whether a number of the grammar lies between two others; 19 digits and more lie beyond all that are asked for.
lies_between() {
  local number
  [[ $1 =~ ^(-?)0*([0-9]{0,18})$ ]] || return 1
  number=$((10#0${BASH_REMATCH[2]}))
  if [ -n "${BASH_REMATCH[1]}" ]; then number=$((-number)); fi
  ((number >= $2 && number <= $3))
}

# Whether the 18 numbers of a camera of this kind are in their ranges.
is_camera() {
  local kind=$1
  shift
  local size='1 4096' eye='-2147483648 2147483647' part='-32768 32767' unit='1 1099511627776' depth='0 4294967294' range word
  local ranges=("$size" "$size" "$eye" "$eye" "$eye")
  for ((word = 0; word < 9; word++)); do ranges+=("$part"); done
  if [ "$kind" = persp ]; then ranges+=('1 1048576' "$unit" '1 4294967294' "$depth"); else ranges+=("$unit" "$unit" "$depth" "$depth"); fi
  for word; do
    range=${ranges[0]}
    ranges=("${ranges[@]:1}")
    # shellcheck disable=SC2086
    lies_between "$word" $range || return 1
  done
  # A bound with zeros before it would be read as octal.
  ((10#${1#-} * 10#${2#-} <= 9437184)) && lies_between "${18}" "$((10#${17#-}))" 4294967294
}

# Whether a word is a list of classes.
is_class_list() {
  local item ends items
  [[ $1 = all ]] && return
  [[ $1 =~ ^[0-9]{1,20}(-[0-9]{1,20})?(,[0-9]{1,20}(-[0-9]{1,20})?)*$ ]] || return 1
  IFS=, read -r -a items <<<"$1"
  for item in "${items[@]}"; do
    IFS=- read -r -a ends <<<"$item-$item"
    lies_between "${ends[0]}" 0 255 && lies_between "${ends[1]}" 0 255 && ((10#${ends[0]} <= 10#${ends[1]})) || return 1
  done
}

# Whether no name of a line of serve stands twice; - may once among those to read and once among those to write.
names_differ() {
  local line=("$@") places=(1 3) at name
  local -A seen=()
  for ((at = 4; at < $#; at++)); do places+=("$at"); done
  for at in "${places[@]}"; do
    name="file ${line[at]}"
    # SURVEY stands at 1, JOURNAL at 3, and then IN and OUT take turns.
    if [ "$name" = 'file -' ]; then name="stream $((at != 1 && at % 2))"; fi
    if [ -n "${seen[$name]-}" ]; then return 1; fi
    seen[$name]=$at
  done
}

# Whether a word is a number from 0 to 2^64 - 1.
is_start() {
  local LC_ALL=C
  [[ $1 =~ ^-?0{1,20}$ || $1 =~ ^[0-9]{1,20}$ ]] || return 1
  # Where both have 20 digits the order of characters is that of numbers.
  # shellcheck disable=SC2071
  [[ ${#1} -lt 20 || ! $1 > 18446744073709551615 ]]
}

# Whether the words are those of a line. Where it says no the program mostly ends at once.
looks_right() {
  local workers='^0{0,18}([1-9]|[1-5][0-9]|6[0-4])$' number='^-?[0-9]{1,20}$' word
  for word; do is_utf8 "$word" && [ -n "$word" ] || return 1; done
  case ${1-}:$# in
    info:3) [[ $2 != "$3" || $2 = - ]] ;;
    draw:26)
      for word in "${@:6:18}"; do [[ $word =~ $number ]] || return 1; done
      [[ ( $2 != "$3" || $2 = - ) && $4 =~ $workers && $5 =~ ^(ortho|persp)$ ]] || return 1
      [[ ${24} =~ ^(class|rgb16|rgb8|intensity)$ && ${26} =~ ^(show|hide)$ ]] || return 1
      is_camera "$5" "${@:6:18}" && is_class_list "${25}"
      ;;
    serve:*)
      (($# >= 6 && $# <= 36 && $# % 2 == 0)) && [[ $3 =~ $workers ]] && names_differ "$@"
      ;;
    trial:5) is_start "$2" && [[ $3 =~ $number && $4 =~ $workers ]] && lies_between "$3" 0 8388608 ;;
    *) return 1 ;;
  esac
}

# Notes the statuses that a word of the line would give, its place, and what is wrong with it.
faults=()
note() { faults+=("$1|$2|$3"); }

# Where the name of each place leads, once it was looked up.
leads=()
look_up() { if [ -z "${leads[$1]-}" ]; then leads[$1]=$(readlink -f -- "${words[$1]}"); fi; }

# Notes in `file` the name of the file that a place's word is: of - a name that leads to its standard stream.
find_file() {
  file=${words[$1]}
  if [ "$file" != - ]; then return; fi
  file=/dev/fd/1
  if [ "$1" -eq 1 ] || [[ ${words[0]} = serve && $1 -gt 3 && $(($1 % 2)) -eq 0 ]]; then file=/dev/fd/0; fi
}

# The name of a file, its place, and the places of names that are opened before it and may not lead to the same file.
foresee_same() {
  local name=$1 at=$2 other file
  shift 2
  for other; do
    find_file "$other"
    if [ -e "$name" ]; then
      if [ -f "$name" ] && [ "$name" -ef "$file" ]; then note 5 "$at" "the file of word $other"; fi
    elif [ "${words[other]}" != - ]; then
      look_up "$at"
      look_up "$other"
      if [ "${leads[at]}" = "${leads[other]}" ]; then note 5 "$at" "the file of word $other"; fi
    fi
  done
}

# The name of a file to read, its place, and the places of the names to write that are opened before it.
foresee_read() {
  local name=$1 at=$2 folder
  if [ "$name" != - ]; then
    foresee_same "$@"
  elif [ -e /dev/fd/0 ]; then
    foresee_same /dev/fd/0 "${@:2}"
  fi
  if [ "$name" = - ]; then
    if [ ! -e /dev/fd/0 ]; then note 5 "$at" 'standard input is closed'; fi
    name=/dev/fd/0
  elif [ ! -e "$name" ]; then
    case $name in */*) folder=${name%/*}/ ;; *) folder=. ;; esac
    if [ -d "$folder" ] && [ ! -x "$folder" ]; then
      note 5 "$at" 'you may not look into its folder'
    else
      note 5 "$at" 'no such file'
    fi
  fi
  if [ -d "$name" ]; then
    note '5 6' "$at" 'a folder'
  elif [ -S "$name" ]; then
    note '5 6' "$at" 'a socket'
  elif [ -e "$name" ] && [ "$name" != /dev/fd/0 ] && [ ! -r "$name" ]; then
    note '5 6' "$at" 'you may not read it'
  fi
}

# A name that leads to what is written, also within a substitution, and its place: a regular file that begins as a survey, or that may since it can't be read.
foresee_spared() {
  local name=$1 at=$2 begins
  if [ ! -f "$name" ] || [ -z "$(find -L "$name" -prune -size +3c 2>/dev/null)" ]; then return; fi
  if [ ! -r "$name" ]; then
    note 5 "$at" 'you may not read it, so it may be a survey, and it stays as it is'
  else
    begins=$(od -An -tx1 -N4 -- "$name" 2>/dev/null)
    if [ "${begins//[[:blank:]]/}" = 4c415346 ]; then note 5 "$at" 'a survey, which stays as it is'; fi
  fi
}

# The name of a file to write, its place, and the places of the names that are opened before it.
foresee_write() {
  local name=$1 at=$2 folder
  if [ "$name" = - ]; then
    if [ /dev/fd/1 -ef /dev/full ]; then note 9 "$at" 'standard output is a full device'; fi
    if [ ! -e /dev/fd/1 ]; then
      note 5 "$at" 'standard output is closed'
    else
      foresee_same /dev/fd/1 "${@:2}"
      foresee_spared "/proc/$$/fd/1" "$at"
    fi
    return
  fi
  foresee_same "$@"
  foresee_spared "$@"
  # A link to no file makes one where it leads.
  if [ -L "$name" ] && [ ! -e "$name" ]; then name=$(readlink -m -- "$name"); fi
  case $name in */*) folder=${name%/*}/ ;; *) folder=. ;; esac
  if [ -d "$name" ]; then
    note '5 9' "$at" 'a folder'
  elif [ -S "$name" ]; then
    note 5 "$at" 'a socket'
  elif [ "$name" -ef /dev/full ]; then
    note 9 "$at" 'a full device'
  elif [ -e "$name" ]; then
    [ -w "$name" ] || note 5 "$at" 'you may not write it'
  elif [ ! -d "$folder" ]; then
    note 5 "$at" "no such folder"
  elif [ ! -w "$folder" ] || [ ! -x "$folder" ]; then
    note 5 "$at" 'you may not write in its folder'
  fi
}

# Only a regular file tells its length before it is read. The greatest, its place, and the status of a longer one.
foresee_length() {
  local name=$1
  if [ "$name" = - ]; then name=/dev/fd/0; fi
  if [ -f "$name" ] && [ -n "$(find -L "$name" -prune -size +"$2"c 2>/dev/null)" ]; then
    note "$4" "$3" "more than $2 bytes"
  fi
}

# What name and length of a survey show.
foresee_survey() {
  local name=$1
  foresee_length "$name" 1073741824 1 7
  if [ "$name" = - ]; then name=/dev/fd/0; fi
  if [ -f "$name" ] && [ ! -s "$name" ]; then
    note 8 1 'an empty file'
  elif [[ $1 = *.[lL][aA][zZ] ]]; then
    note 8 1 "by its name compressed points, which aren't read; pdal translate and las2las make them plain"
  fi
}

# Whether the survey's format has RGB, where that is asked for: byte 104 of the header tells the format.
foresee_colour() {
  local name=$1 form
  if [ "$name" = - ]; then name=/dev/fd/0; fi
  if [[ $2 != rgb* || ! -f $name || ! -r $name ]]; then return; fi
  form=$(od -An -tu1 -j104 -N1 -- "$name" 2>/dev/null)
  case ${form//[[:blank:]]/} in
    0 | 1 | 4 | 6 | 9) note 4 23 "point data record format $((form)) has no RGB" ;;
  esac
}

# What can be seen of a line before it runs, in the order in which the program opens its files.
foresee() {
  local at opened=(1) written=()
  if [ "$1" = trial ]; then
    foresee_write "$5" 4
    return
  fi
  foresee_read "$2" 1
  foresee_survey "$2"
  if [ "$1" = serve ]; then
    for ((at = 4; at < $#; at += 2)); do
      foresee_read "${words[at]}" "$at" "${written[@]}"
      foresee_write "${words[at + 1]}" $((at + 1)) "${opened[@]}" "$at"
      opened+=("$at" $((at + 1))) written+=($((at + 1)))
    done
    foresee_write "$4" 3 "${opened[@]}"
    for ((at = 4; at < $#; at += 2)); do foresee_length "${words[at]}" 1048576 "$at" 10; done
  else
    if [ "$1" = draw ]; then foresee_colour "$2" "${24}"; fi
    foresee_write "$3" 2 1
  fi
}

# Whether a name is read or written; nothing where the place is no name's.
way() {
  case $1 in
    SURVEY | IN) echo read ;;
    OUT | JOURNAL) echo written ;;
  esac
}

# The line of a command's help that tells of a place, its number left away.
place_line() {
  local at=$2
  if [ "$1" = serve ] && [ "$at" -gt 5 ] && [ "$at" -lt 36 ]; then at=$((4 + at % 2)); fi
  case $1 in
    draw | info | serve | trial) sed -n "s/^ *$at \([A-Z]*\)  *\(.*\)/\1 \2/p" "$help_folder/$1.txt" ;;
  esac
}

# Says what the word is that doesn't fit at this place.
explain_word() {
  local at=$1 word line label other earlier
  for other in "${!words[@]}"; do
    is_utf8 "${words[other]}" || { echo "word $other isn't UTF-8: $(quoted "${words[other]}")"; return; }
  done
  if [ "$at" -ge "${#words[@]}" ]; then echo "word $at is missing"; return; fi
  word=${words[at]}
  line=$(place_line "${words[0]}" "$at")
  label=${line%% *}
  if [ "$at" -eq 0 ]; then
    echo "word 0 is $(quoted "$word"): no command; the commands are draw, info, serve and trial"
  elif [ -z "$line" ]; then
    echo "word $at is $(quoted "$word"): the words of ${words[0]} end before it"
  else
    for ((other = 1; other < at && ${#word}; other++)); do
      if [ "${words[other]}" != "$word" ] || [ -z "$(way "$label")" ]; then continue; fi
      earlier=$(place_line "${words[0]}" "$other")
      earlier=$(way "${earlier%% *}")
      if [ -z "$earlier" ] || { [ "$word" = - ] && [ "$earlier" != "$(way "$label")" ]; }; then continue; fi
      echo "word $at is $(quoted "$word"), as word $other is"
      return
    done
    echo "word $at is $(quoted "$word"), where $label is wanted: ${line#* }"
  fi
}

# Says which word a number of the camera is: the first is word 5, and behind the last comes the number of pixels.
explain_number() {
  if [ "$1" -le 18 ]; then
    explain_word $((4 + $1))
  else
    echo "words 5 and 6 are $(quoted "${words[5]}") and $(quoted "${words[6]}"): W times H is at most 9437184"
  fi
}

# The further line for a status, or none.
explain() {
  local status=$1 told fault statuses at what
  if [ "$status" -eq 2 ] || [ "$status" -eq 3 ]; then
    # Words are refused before anything is opened or changed, so the program can be asked once more.
    told=$("$program" "${words[@]}" 2>&1 >/dev/null </dev/null)
    if [[ $told =~ ^word\ ([0-9]{1,6})\ is\ not\ expected$ ]]; then explain_word "${BASH_REMATCH[1]}"; fi
    if [[ $told =~ ^camera\ number\ ([0-9]{1,2})\ is\ out\ of\ range: ]]; then explain_number "${BASH_REMATCH[1]}"; fi
    return
  fi
  for fault in "${faults[@]}"; do
    statuses=${fault%%|*} fault=${fault#*|}
    at=${fault%%|*} what=${fault#*|}
    if [[ " $statuses " = *" $status "* ]]; then
      echo "word $at is $(quoted "${words[at]}"): $what"
      return
    fi
  done
}
