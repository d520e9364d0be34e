# Persistent keys of 16 bytes under the identifiers from 1 on, 2,048 or, by `-v count=N`, another number.
BEGIN {
  if (!count) count = 2048
  for (i = 1; i <= count; i++) printf "1 import k life=1 id=%x type=1001 usage=1 alg=0 data=%032x\n", i, i
}
