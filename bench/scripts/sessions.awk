# 20,000 lines by sixteen sessions: each imports a key of 16 to 271 bytes, and then exports what it last imported.
# From a session's 17th import on, the reply is KEY_LIMIT.
BEGIN {
  for (i = 0; i < 10000; i++) {
    session = i % 16 + 1
    data = ""
    for (b = 0; b < 16 + i * 37 % 256; b++) data = data sprintf("%02x", (i * 31 + b * 17) % 256)
    print session, "import k" int(i / 16) % 16, "type=1001 usage=1 alg=0 data=" data
    print session, "export $k" int(i / 16) % 16
  }
}
