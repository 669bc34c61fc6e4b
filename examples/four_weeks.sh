#!/usr/bin/env bash
# Writes the text of a large job: the 28 days between two readings of a card, about 400 expressions. Each day counts its minutes less the break by a function, and its rest, where
# there is any, beyond 45 minutes.
set -euo pipefail

echo "# Made by four_weeks.sh: 28 days of one card."
echo "host depot under top"
echo "host driver under depot"
echo
echo "type minutes = number"
echo "type card    = (cell @driver minutes)"
echo "type rule    = (function minutes minutes {})"
echo
for ((day = 1; day <= 28; day++)); do
    work=$((day % 7 == 0 ? 0 : 400 + (day * 37) % 140))
    rest=$((day % 5 == 0 ? 0 : 540 + (day * 53) % 180))
    echo "value work-$day : card = $work"
    echo "value rest-$day : card = $rest"
done
echo "value driver-key : (limit-key driver)"
echo
echo "rights {depot}"
echo
echo "job (apply"
echo "  (function net :rule"
echo "    (limit [driver-key]"
echo "      (sum"
for ((day = 1; day <= 28; day++)); do
    echo "        (sum (apply net (read work-$day))"
    echo "          (test :minutes (read rest-$day) (difference (read rest-$day) 45) 0))"
done
echo "      )))"
echo "  (function m :minutes (test :minutes m (difference m 30) 0)))"
