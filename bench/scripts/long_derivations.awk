# 100 derivations of 8,160 bytes by one session: the most that HKDF with SHA-256 gives.
BEGIN {
  for (i = 0; i < 100; i++) {
    print "1 kdf_setup 1 alg=08000109"
    print "1 kdf_input_bytes 1 step=202 data=000102030405060708090a0b0c"
    print "1 kdf_input_bytes 1 step=101 data=0b0b0b0b0b0b0b0b0b0b0b0b0b0b0b0b0b0b0b0b0b0b"
    print "1 kdf_input_bytes 1 step=203 data=f0f1f2f3f4f5f6f7f8f9"
    print "1 kdf_output_bytes 1 len=8160"
    print "1 abort 1"
  }
}
