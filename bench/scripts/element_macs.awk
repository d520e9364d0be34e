# 20,000 calls of one session on a key of the secure element: MACs of a byte.
BEGIN {
  print "1 import k life=100 type=2400 usage=400 alg=03c00200 data=000102030405060708090a0b0c0d0e0f"
  for (i = 1; i < 20000; i++) print "1 mac_compute $k alg=03c00200 data=00"
}
