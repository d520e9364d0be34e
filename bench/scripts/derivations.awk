# 32 derivations by PBKDF2 with a cost of 40,000, by sixteen sessions: next to nothing is read or printed beside the work,
# which takes so long that the threads spread over the processors.
BEGIN {
  for (i = 0; i < 32; i++) {
    session = i % 16 + 1
    print session, "kdf_setup 1 alg=08800109"
    print session, "kdf_input_integer 1 step=205 value=40000"
    print session, "kdf_input_bytes 1 step=202 data=" sprintf("%08x", i)
    print session, "kdf_input_bytes 1 step=102 data=70617373776f7264"
    print session, "kdf_output_bytes 1 len=32"
    print session, "abort 1"
  }
}
