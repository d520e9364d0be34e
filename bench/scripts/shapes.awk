# 20,000 calls of one session, each of one shape, by `-v shape=NAME`: a hash of a byte, without a key; an export of a key of
# a byte; setups of a MAC, and their ends; steps of a MAC, of a byte each; imports of a key of a byte, and their destructions;
# questions for a key's attributes, which are one turn as each change of a key is.
BEGIN {
  if (shape == "setup" || shape == "step") print "1 import k type=2400 usage=400 alg=03c00200 data=000102030405060708090a0b0c0d0e0f"
  else print "1 import k type=1001 usage=1 alg=0 data=00"
  if (shape == "step") print "1 mac_sign_setup 1 $k alg=03c00200"
  for (i = 0; i < 19998; i++) {
    odd = i % 2
    if (shape == "without_a_key") print "1 hash_compute alg=02000009 data=61"
    if (shape == "with_a_key") print "1 export $k"
    if (shape == "setup") print odd ? "1 abort 1" : "1 mac_sign_setup 1 $k alg=03c00200"
    if (shape == "step") print "1 mac_update 1 data=00"
    if (shape == "creation") print odd ? "1 destroy $n" : "1 import n type=1001 usage=1 alg=0 data=00"
    if (shape == "change") print "1 attributes $k"
  }
}
