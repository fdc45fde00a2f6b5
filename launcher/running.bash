# How the launcher runs the program: in its own place, or beside it where a line is said after its end.
# It stands on `program` of the launcher and on words.bash.
# shellcheck disable=SC2154

# Hands a signal on to the program, or takes it where there is none yet.
pass() {
  if [ -n "$child" ]; then
    kill -s "$1" "$child" 2>/dev/null
  else
    trap - "$1"
    kill -s "$1" $$
  fi
}

# Ends by the signal that ended the program.
end_by() {
  local signal kill
  signal=$(kill -l "$1" 2>/dev/null) || exit "$1"
  ulimit -c 0
  # bash itself doesn't end by QUIT.
  if [ "$signal" = QUIT ] && kill=$(type -P kill); then exec "$kill" -QUIT $$; fi
  trap - "$signal"
  kill -s "$signal" $$
  exit "$1"
}

# Runs the program as a child that has the streams and the signals as they are here, and ends as it ended.
# A stop of this shell alone isn't handed on.
run_and_explain() {
  local signals=(HUP INT QUIT USR1 USR2 ALRM TERM) signal errors input status='' tick parent=()
  child=''
  # Where this launcher is killed, the program goes too.
  if command -v setpriv >/dev/null; then parent=(setpriv --pdeathsig KILL --); fi
  # shellcheck disable=SC2064
  for signal in "${signals[@]}"; do trap "pass $signal" "$signal"; done
  # Without a redirection of its own a child behind & would have no standard input.
  if [ -e /dev/fd/0 ]; then exec {input}<&0; else input=-; fi
  (
    trap - "${signals[@]}"
    if [ "$input" = - ]; then exec "${parent[@]}" "$program" "$@"; fi
    exec "${parent[@]}" "$program" "$@" {input}<&-
  ) <&"$input" &
  child=$!
  # An end that the program closes has no other holder here.
  exec {errors}>&2 2>/dev/null </dev/null >/dev/null
  if [ "$input" != - ]; then exec {input}<&-; fi
  # bash doesn't see a signal that comes just before it waits, so it looks up each second.
  while [ -z "$status" ]; do
    sleep 1 {errors}>&- &
    tick=$!
    wait -n "$child" "$tick"
    kill "$tick"
    if ! kill -0 "$child"; then
      wait "$child"
      status=$?
    fi
  done
  if [ "$status" -gt 128 ]; then end_by "$status"; fi
  for signal in "${signals[@]}"; do trap - "$signal"; done
  exec 2>&"$errors"
  if [ "$status" -ne 0 ]; then explain "$status" >&2; fi
  if [ ${#words[@]} -eq 0 ]; then (show_help commands >&2); fi
  exit "$status"
}

# Runs the program in the place of this shell, so that nothing stands between, unless what can be seen of
# the words beforehand says that it will refuse one of them.
run() {
  words=("$@")
  if looks_right "$@"; then
    foresee "$@"
    if [ ${#faults[@]} -eq 0 ]; then exec "$program" "$@"; fi
  fi
  # With standard error closed nothing can be said.
  if [ ! -e /dev/fd/2 ]; then exec "$program" "$@"; fi
  run_and_explain "$@"
}
