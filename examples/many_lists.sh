#!/usr/bin/env bash
# A script that makes and drops more words than the arena has, nearly eight times over: 2,000 lists of 2,043 places.
# What is reached, on the stack and in a register, is there at the end.
awk 'BEGIN {
  print "1 set 0 {kept,[1,2]}\n1 push 0\n1 set 1 {kept,too}"
  list = "[1"
  for (i = 1; i < 2043; i++) list = list ",1"
  for (i = 0; i < 2000; i++) print "1 set 0 " list "]"
  print "1 pop 2\n1 print 2\n1 print 1"
}'
