# 112 texts of 16,384 bytes, which sixteen sessions decrypt with CCM, each by a key of its own. No text has its tag: every
# reply is INVALID_SIGNATURE, so that little is printed beside the work of two AES blocks for each block of text.
BEGIN {
  for (i = 0; i < 16384; i++) text = text sprintf("%02x", (i * 31 + int(i / 256)) % 256)
  for (session = 1; session <= 16; session++) {
    key = sprintf("%02x", session)
    for (i = 0; i < 4; i++) key = key key
    print session, "import k type=2400 usage=200 alg=05500100 data=" key key
  }
  for (i = 0; i < 112; i++) print i % 16 + 1, "aead_decrypt $k alg=05500100 nonce=00000000000000 data=" text
}
