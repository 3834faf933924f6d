#!/bin/sh
# Goes on from a season that a league accepts to better ones, until one can't be bettered.
#
#     examples/least.sh INSTANCE SEASON NAME [CONFLICTS]
#
# Each call of `prove` may learn at most CONFLICTS clauses (all where nothing is said). It says where it stands after each, and
# leaves the best season in NAME.xml. Where that is shown to be the least, the certificate is in NAME.log, which `bound` checks.
# Where the budget is spent, it says below which number no season costs, and NAME.log has a certificate of that, unless it is 0.
# The exit status is that of the last call: 0 at the least, 5 where the budget is spent, 1 where the first season isn't accepted.
set -u
if [ $# -lt 3 ]; then
  echo "usage: $0 INSTANCE SEASON NAME [CONFLICTS]" >&2
  exit 2
fi
robin=$(dirname "$0")/../robin
instance=$1
name=$3
conflicts=${4:-all}
answer=$name.answer
cmp -s "$2" "$name.xml" || cp "$2" "$name.xml" || exit 6
while true; do
  "$robin" prove "$instance" "$name.xml" --conflicts "$conflicts" >"$answer"
  status=$?
  case $status in
    9)
      mv "$answer" "$name.xml"
      sed -n 's/.* objective="\([0-9]*\)".*/better: objective \1/p' "$name.xml"
      ;;
    0)
      mv "$answer" "$name.log"
      sed -n '1s/^bound /least: objective /p' "$name.log"
      exit 0
      ;;
    5)
      floor=$(sed -n '2s/^bound //p' "$answer")
      if [ "$floor" != 0 ]; then
        sed '1d;/^end$/q' "$answer" >"$name.log"
      fi
      rm "$answer"
      echo "open: the budget of $conflicts conflicts is spent, and no accepted season costs less than $floor"
      exit 5
      ;;
    *)
      cat "$answer"
      rm "$answer"
      exit $status
      ;;
  esac
done
