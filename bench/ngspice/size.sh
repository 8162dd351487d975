#!/bin/sh
# Sizes for the cards of a deck: every transistor 0.36 um by 0.18 um, the keeper as wide and KEEPER um long (0.18 over its part of a
# minimum pch; 0.5 where nothing is said). domsyn skips the words behind a model's name, so `domsyn sim` reads what comes out too.
# usage: size.sh DECK [KEEPER] > SIZED
exec sed -E -e 's/^(m.* (nch|pch))$/\1 w=0.36u l=0.18u ad=0.18p as=0.18p pd=1.4u ps=1.4u/' \
    -e "s/^(m.* pkeep)\$/\1 w=0.36u l=${2:-0.5}u ad=0.18p as=0.18p pd=1.4u ps=1.4u/" "$1"
