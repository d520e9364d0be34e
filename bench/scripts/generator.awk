# The lines that `generate N` runs, for N = 20,000 or, by `-v count=N`, another number: four sessions each import a key,
# encrypt by it, export it, ask it for a MAC that it doesn't permit, and destroy it, and begin again.
BEGIN {
  if (!count) count = 20000
  for (i = 0; i < count; i++) {
    kind = int(i / 4) % 5
    if (kind == 0) call = "import k type=2400 usage=101 alg=04404000 data=" bytes_from(i, 16)
    if (kind == 1) call = "cipher_encrypt $k alg=04404000 data=" bytes_from(3 * i, 64)
    if (kind == 2) call = "export $k"
    if (kind == 3) call = "mac_compute $k alg=03c00200 data=00"
    if (kind == 4) call = "destroy $k"
    print i % 4 + 1, call
  }
}

function bytes_from(first, many,   text, t) {
  for (t = 0; t < many; t++) text = text sprintf("%02x", (first + t) % 256)
  return text
}
