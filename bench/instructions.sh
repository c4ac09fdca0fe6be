#!/bin/sh
# Prints the instructions a sample of whole calls, counted by valgrind: instructions.sh BENCH.
set -eu
if ! command -v valgrind >/dev/null; then
  echo "No instruction counts: they need valgrind."
  exit 0
fi
kinds="pulse noise ramp zigzag spike dropout"

# table SAMPLES CALL..: calls of so many samples in all; where `each` is set, so many a channel, the set
# of tolerances of scan, or k of a view; where `parts` is set too, at these unequal parts.
table() {
  samples=$1
  shift
  printf '%-21s' ''
  printf ' %10s' $kinds
  echo
  for call in "$@"; do
    functions="kovrelna_$call ${call}_c"
    [ "$call" != expand ] || functions="$functions expand_table_c"
    [ "$call" != scan ] || functions="$functions kovrelna_walks"
    for function in $functions; do
      # What is counted of several calls is the call itself.
      case $function in
        kovrelna_walks) counted=kovrelna_walk ;;
        kovrelna_view_run) counted=kovrelna_view_add ;;
        view_run_c) counted=view_add_c ;;
        *) counted=$function ;;
      esac
      printf '%-21s' "$function"
      for kind in $kinds; do
        valgrind --tool=callgrind --callgrind-out-file=/dev/null --toggle-collect="$counted" \
          "$bench" once "$kind" "$function" ${each:-} ${parts:-} 2>&1 |
          awk -v samples="$samples" '/Collected/ { printf " %10.1f", $NF / samples }'
      done
      echo
    done
  done
}

bench=$1
echo
echo "Instructions a sample, whole call, 4096 samples, tolerance 7.50; records and lists of all samples,"
echo "of walk for judge_greedy, and the link from the first to the last"
table 4096 walk gallop minimum write read same judge judge_greedy measure sum expand expand_with
each=4096
for parts in 1 2; do
  below="10/3"
  [ "$parts" = 1 ] || below="5/2"
  echo
  echo "Instructions a sample, whole call, 4096 samples, 15/2 above and $below below; records and lists of"
  echo "walk; last 64 channels of so many"
  table 4096 walk gallop minimum write judge judge_greedy
  table 262144 report
done
parts=""
echo
echo "Instructions a sample and tolerance, whole call, 4096 samples, 16 tolerances from 0.50 to 8;"
echo "kovrelna_walks: walk at each"
each=0
table 65536 scan
echo
echo "The same, from 2.50 to 40"
each=1
table 65536 scan
echo
echo "The same, from 1/2 above and 1/3 below to 8 and 16/3"
each=2
table 65536 scan
echo
echo "The same, from 3/2 above and 5/2 below to 24 and 40"
each=3
table 65536 scan
for each in 8 32; do
  echo
  echo "Instructions a sample lent, view_add of the last of 4096 samples, k = $each"
  table 4096 view_add
done
each=""
echo
echo "Instructions a sample, whole call, 256 samples, allowance 20"
table 256 least
echo
echo "Instructions a sample, whole call, 64 channels of 4096 samples, tolerance 7.50"
table 262144 report
echo
echo "The same, 64 channels of 2 samples"
kinds=pulse each=2
table 128 report
kinds="pulse noise"
for each in 8 32; do
  echo
  echo "Instructions a sample lent, view_add of all of 4096 samples, one by one, k = $each"
  table $((4096 * 4097 / 2 - 1)) view_run
done
for each in 4096 256 16; do
  echo
  echo "Instructions a sample, whole call, two runs of 64 channels of $each samples, tolerance 7.50"
  table $((128 * each)) pedestals
done
