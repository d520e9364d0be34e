# 20,000 exports of the persistent keys under the identifiers from 1 to 2,048 or, by `-v count=N`, another number, in turn.
BEGIN {
  if (!count) count = 2048
  for (i = 0; i < 20000; i++) printf "1 export #%x\n", i % count + 1
}
