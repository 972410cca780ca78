#!/usr/bin/env bash
# A script that comes to three limits: a line of 4,097 bytes, 1,024 processes, and 16,384 names of atoms. What was there
# before a refused line is there after it.
awk 'BEGIN {
  line = "1 set 0 "
  while (length(line) < 4097) line = line "1"
  print line
  for (n = 2; n <= 1025; n++) print "sys spawn"
  print "1000 exit\nsys spawn\n1000 print 0"
  for (k = 0; k < 16384; ) {
    names = "a" k++
    while (k < 16384 && k % 512) names = names ",a" k++
    print "1 set 0 [" names "]"
  }
  print "1 set 0 one_more\n1 set 0 a7\n1 print 0"
}'
