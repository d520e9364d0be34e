# 10,000 names of one session, and an export by each.
BEGIN {
  for (i = 0; i < 10000; i++) print 1, "import n" i, "type=1001 usage=1 alg=0 data=" sprintf("%08x", i * 2654435)
  for (i = 0; i < 10000; i++) print 1, "export $n" (i * 7919) % 10000
}
