# 20,000 calls by sixteen sessions, each of which does next to nothing beside its turn: exports of a key of a byte, and
# hashes of a byte.
BEGIN {
  for (session = 1; session <= 16; session++) print session, "import k type=1001 usage=1 alg=0 data=00"
  for (i = 16; i < 20000; i++) print i % 16 + 1, int(i / 16) % 2 ? "export $k" : "hash_compute alg=02000009 data=61"
}
