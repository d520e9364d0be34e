# Writes scripts that give the vectors of one family to operations on handles in pieces, and the replies that are due.
# tests/pieces runs it:
#
#   awk -v family=NAME -v out=PATH -f tests/write_scripts.awk TABLE..
#
# The scripts are PATH-1.script, PATH-2.script and so on, and the replies PATH-1.due and so on. Two numbers are printed:
# how many vectors the tables have, and how many cases were made of them.
#
# A case is one operation, from its key's import to its end: a vector, what is done with it, and a cutting. Cases go
# round over sixteen sessions and their four handles, and a script has a line of each of these 64 in turn. In the lines
# of a case `@` stands for its handle.
#
# A reply that is due is a line of fields between tabs: session and number, case, command, status, and its bytes:
#
#   none                    none
#   key                     a key's identifier
#   is HEX                  these
#   add                     any, and they are added to the case's text
#   all HEX                 likewise, and the case's text is then HEX
#   made NAME DIGITS FRONT  likewise, and the case's text has then so many digits, FRONT first, and is the same in all
#                           cases with this NAME

BEGIN {
  most_lines = 20000
  most_bytes = 4194304
  most_digits = 32768 # of the bytes of one call
  # cuttings; all others are the place of the one cut
  byte_by_byte = -1
  whole = -2

  number["SHA-224"] = "08"; bytes["SHA-224"] = 28; block["SHA-224"] = 64
  number["SHA-256"] = "09"; bytes["SHA-256"] = 32; block["SHA-256"] = 64
  number["SHA-384"] = "0a"; bytes["SHA-384"] = 48; block["SHA-384"] = 128
  number["SHA-512"] = "0b"; bytes["SHA-512"] = 64; block["SHA-512"] = 128
}

/^#/ { next }

# `-` stands for no bytes, HEX*N for N times the same ones, and a comma stands between texts that follow one another.
{
  for (i = 1; i <= NF; i++)
    if ($i == "-") $i = ""
    else if ($i ~ /[*,]/) $i = written_out($i)
}

# --- the families: for each vector, all that is done with it, in all cuttings

# A message that is too long for one call is given once, in the longest pieces.
family == "hash" && length($3) > most_digits {
  vectors++
  hash("compute", whole)
}

family == "hash" && length($3) <= most_digits {
  vectors++
  hash_calls()
  for (cut = byte_by_byte; cut <= last_cut($3, block[$2]); cut++) {
    hash("compute", cut)
    hash("verify", cut)
    hash("refuse", cut)
  }
}

family == "hmac" {
  vectors++
  tag = length($5) / 2
  alg = sprintf("03%02x00%s", tag < bytes[$2] ? 128 + tag : 128, number[$2])
  mac_calls($1 " " $2, "1100", alg, $3, $4, $5)
  for (cut = byte_by_byte; cut <= last_cut($4, block[$2]); cut++) {
    mac($1 " " $2, "sign", "1100", alg, $3, $4, $5, cut)
    mac($1 " " $2, "verify", "1100", alg, $3, $4, $5, cut)
    mac($1 " " $2, "refuse", "1100", alg, $3, $4, $5, cut)
  }
}

family == "cmac" {
  vectors++
  tag = length($4) / 2
  alg = sprintf("03%02x0200", 192 + (tag < 16 ? tag : 0))
  mac_calls($1, "2400", alg, $2, $3, $4)
  for (cut = byte_by_byte; cut <= last_cut($3, 16); cut++) {
    mac($1, "sign", "2400", alg, $2, $3, $4, cut)
    mac($1, "verify", "2400", alg, $2, $3, $4, cut)
    mac($1, "refuse", "2400", alg, $2, $3, $4, cut)
  }
}

family == "ecb" {
  vectors++
  cipher_calls($1, "04404400", $2, "", $3, $4)
  for (cut = byte_by_byte; cut <= last_cut($3, 16); cut++) {
    cipher($1, "encrypt", "04404400", $2, "", $3, "all " $4, cut)
    cipher($1, "decrypt", "04404400", $2, "", $4, "all " $3, cut)
  }
}

family == "cbc" || family == "ctr" {
  vectors++
  alg = family == "cbc" ? "04404000" : "04c01000"
  cipher_calls($1, alg, $2, $3, $4, $5)
  for (cut = byte_by_byte; cut <= last_cut($4, 16); cut++) {
    cipher($1, "encrypt", alg, $2, $3, $4, "all " $5, cut)
    cipher($1, "decrypt", alg, $2, $3, $5, "all " $4, cut)
  }
}

# CBC with padding has no vectors of its own. Of those without, the first 0 to 33 bytes are encrypted: whole blocks give
# what they give there.
family == "padded" {
  for (n = 0; n <= 33; n++) {
    vectors++
    digits = 32 * int(n / 16)
    for (cut = byte_by_byte; cut <= n; cut++)
      cipher($1 ":" n, "encrypt", "04404100", $2, $3, substr($4, 1, 2 * n), \
        "made " $1 ":" n " " digits + 32 " " substr($5, 1, digits), cut)
  }
}

# And then, from lines NAME:N CIPHERTEXT, they are decrypted again; once without taking the padding off, too.
family == "unpadded" && NF > 2 {
  key[$1] = $2
  iv[$1] = $3
  text[$1] = $4
}

family == "unpadded" && NF == 2 {
  vectors++
  split($1, parts, ":")
  name = parts[1]
  n = parts[2]
  plain = substr(text[name], 1, 2 * n)
  cipher_calls($1, "04404100", key[name], iv[name], plain, $2)
  for (cut = byte_by_byte; cut <= last_cut($2, 16); cut++)
    cipher($1, "decrypt", "04404100", key[name], iv[name], $2, "all " plain, cut)
  padding = ""
  for (i = n % 16; i < 16; i++) padding = padding sprintf("%02x", 16 - n % 16)
  cipher($1, "decrypt with its padding", "04404000", key[name], iv[name], $2, "all " plain padding, whole)
}

family == "gcm" || family == "ccm" {
  vectors++
  alg = sprintf("05%02x0%s00", 64 + length($7) / 2, family == "ccm" ? "1" : "2")
  if (length($4) <= most_digits) {
    aead_calls()
    aeads(byte_by_byte, byte_by_byte)
  } else aeads(whole, byte_by_byte)
  for (cut = 0; cut <= last_cut($5, 16); cut++) aeads(whole, cut)
  for (cut = 0; cut <= last_cut($4, 16); cut++) aeads(cut, whole)
}

# Pieces of no bytes can't be derived, so that a cut at 0 is none. A long output is given in two pieces, once.
family == "hkdf" && length($6) / 2 > 1000 {
  vectors++
  hkdf("key gives bytes", bytes[$2])
}

family == "hkdf" && length($6) / 2 <= 1000 {
  vectors++
  for (cut = byte_by_byte; cut <= last_cut($6, bytes[$2]) && cut < length($6) / 2; cut++) {
    hkdf("key gives bytes", cut)
    hkdf("bytes give bytes", cut)
    hkdf("key verifies", cut)
    hkdf("bytes refuse", cut)
    if (cut >= 0) hkdf("key gives key", cut)
  }
}

# Many turns take long: their output is given byte by byte and cut after the first block.
family == "pbkdf2" && $5 > 1000 {
  vectors++
  pbkdf2("key gives bytes", whole, byte_by_byte)
  pbkdf2("key gives bytes", whole, bytes[$2])
}

family == "pbkdf2" && $5 <= 1000 {
  vectors++
  for (cut = byte_by_byte; cut <= last_cut($6, bytes[$2]) && cut < length($6) / 2; cut++) {
    pbkdf2("key gives bytes", whole, cut)
    pbkdf2("bytes give bytes", whole, cut)
    pbkdf2("key verifies", whole, cut)
    pbkdf2("bytes refuse", whole, cut)
    if (cut >= 0) pbkdf2("key gives key", whole, cut)
  }
  for (cut = byte_by_byte; cut <= last_cut($4, 16); cut++) pbkdf2("key gives bytes", cut, whole)
}

END {
  flush()
  print vectors + 0, cases + 0
}

# --- cases

function hash(what, cut) {
  begin($1 " " $2 ", " what ", " label(cut))
  call("hash_setup @ alg=020000" number[$2])
  give("hash_update @ data=", $3, cut)
  if (what == "compute") call("hash_finish @", "is " $4)
  if (what == "verify") call("hash_verify @ hash=" $4)
  if (what == "refuse") {
    call("hash_verify @ hash=" turned($4), "none", "INVALID_SIGNATURE")
    call("abort @")
  }
  end()
}

# The vector in one call that computes it, one that verifies it, and one that is refused.
function hash_calls(   alg) {
  begin($1 " " $2 ", in one call")
  alg = "020000" number[$2]
  call("hash_compute alg=" alg " data=" $3, "is " $4)
  call("hash_compare alg=" alg " data=" $3 " hash=" $4)
  call("hash_compare alg=" alg " data=" $3 " hash=" turned($4), "none", "INVALID_SIGNATURE")
  end()
}

function mac_calls(name, type, alg, key, message, tag) {
  begin(name ", in one call")
  call("import k@ type=" type " usage=c00 alg=" alg " data=" key, "key")
  call("mac_compute $k@ alg=" alg " data=" message, "is " tag)
  call("mac_verify $k@ alg=" alg " data=" message " mac=" tag)
  call("mac_verify $k@ alg=" alg " data=" message " mac=" turned(tag), "none", "INVALID_SIGNATURE")
  call("destroy $k@")
  end()
}

function mac(name, what, type, alg, key, message, tag, cut) {
  begin(name ", " what ", " label(cut))
  call("import k@ type=" type " usage=" (what == "sign" ? 400 : 800) " alg=" alg " data=" key, "key")
  call("mac_" (what == "sign" ? "sign" : "verify") "_setup @ $k@ alg=" alg)
  give("mac_update @ data=", message, cut)
  if (what == "sign") call("mac_sign_finish @", "is " tag)
  if (what == "verify") call("mac_verify_finish @ mac=" tag)
  if (what == "refuse") {
    call("mac_verify_finish @ mac=" turned(tag), "none", "INVALID_SIGNATURE")
    call("abort @")
  }
  call("destroy $k@")
  end()
}

# The vector in one call each way. One that encrypts draws its initialisation vector at random, so that only ECB has it.
function cipher_calls(name, alg, key, iv, plain, text) {
  begin(name ", in one call")
  call("import k@ type=2400 usage=300 alg=" alg " data=" key, "key")
  if (iv == "") call("cipher_encrypt $k@ alg=" alg " data=" plain, "is " text)
  call("cipher_decrypt $k@ alg=" alg " data=" iv text, plain == "" ? "none" : "is " plain)
  call("destroy $k@")
  end()
}

function cipher(name, what, alg, key, iv, text, due, cut,   way) {
  begin(name ", " what ", " label(cut))
  way = what == "encrypt" ? "encrypt" : "decrypt"
  call("import k@ type=2400 usage=" (way == "encrypt" ? 100 : 200) " alg=" alg " data=" key, "key")
  call("cipher_" way "_setup @ $k@ alg=" alg)
  if (iv != "") call("cipher_set_iv @ iv=" iv)
  give("cipher_update @ data=", text, cut, "add")
  call("cipher_finish @", due)
  call("destroy $k@")
  end()
}

function aeads(ad_cut, text_cut) {
  aead("encrypt", ad_cut, text_cut)
  aead("decrypt", ad_cut, text_cut)
  aead("refuse", ad_cut, text_cut)
}

# The vector in one call each way, and in one that is refused.
function aead_calls() {
  begin($1 ", in one call")
  call("import k@ type=2400 usage=300 alg=" alg " data=" $2, "key")
  call("aead_encrypt $k@ alg=" alg " nonce=" $3 " ad=" $4 " data=" $5, "is " $6 $7)
  call("aead_decrypt $k@ alg=" alg " nonce=" $3 " ad=" $4 " data=" $6 $7, $5 == "" ? "none" : "is " $5)
  call("aead_decrypt $k@ alg=" alg " nonce=" $3 " ad=" $4 " data=" turned($6 $7), "none", "INVALID_SIGNATURE")
  call("destroy $k@")
  end()
}

# CCM needs the lengths; for GCM every other case leaves them out.
function aead(what, ad_cut, text_cut,   way, i) {
  begin($1 ", " what ", " (text_cut == whole ? "associated data " label(ad_cut) : label(text_cut)))
  way = what == "encrypt" ? "encrypt" : "decrypt"
  call("import k@ type=2400 usage=" (way == "encrypt" ? 100 : 200) " alg=" alg " data=" $2, "key")
  call("aead_" way "_setup @ $k@ alg=" alg)
  if (family == "ccm" || cases % 2)
    call("aead_set_lengths @ ad_len=" length($4) / 2 " plain_len=" length($5) / 2)
  call("aead_set_nonce @ nonce=" $3)
  give("aead_update_ad @ data=", $4, ad_cut)
  cut_up(way == "encrypt" ? $5 : $6, text_cut)
  for (i = 1; i <= pieces; i++)
    call("aead_update @ data=" piece[i], i < pieces ? "add" : "all " (way == "encrypt" ? $6 : $5))
  if (what == "encrypt") call("aead_finish @", "is " $7)
  if (what == "decrypt") call("aead_verify @ tag=" $7)
  if (what == "refuse") {
    call("aead_verify @ tag=" turned($7), "none", "INVALID_SIGNATURE")
    call("abort @")
  }
  call("destroy $k@")
  end()
}

# At every other cut the info comes before the salt, and empty inputs are left out.
function hkdf(what, cut,   alg) {
  begin($1 ", " what ", " label(cut))
  alg = "080001" number[$2]
  if (what ~ /^key/) call("import k@ type=1200 usage=4000 alg=" alg " data=" $3, "key")
  call("kdf_setup @ alg=" alg)
  if (cut % 2 && $5 != "") call("kdf_input_bytes @ step=203 data=" $5)
  if (cut % 2 == 0 || $4 != "") call("kdf_input_bytes @ step=202 data=" $4)
  if (what ~ /^key/) call("kdf_input_key @ $k@ step=101")
  else call("kdf_input_bytes @ step=101 data=" $3)
  if (cut % 2 == 0) call("kdf_input_bytes @ step=203 data=" $5)
  derive(what, $6, cut)
}

# A password's key is of the type DERIVE or, at every other cut, PASSWORD.
function pbkdf2(what, salt_cut, cut,   alg) {
  begin($1 ", " what ", " (salt_cut == whole ? label(cut) : "salt " label(salt_cut)))
  alg = "088001" number[$2]
  if (what ~ /^key/) call("import k@ type=" (cut % 2 ? "1203" : "1200") " usage=4000 alg=" alg " data=" $3, "key")
  call("kdf_setup @ alg=" alg)
  call("kdf_input_integer @ step=205 value=" $5)
  give("kdf_input_bytes @ step=202 data=", $4, salt_cut)
  if (what ~ /^key/) call("kdf_input_key @ $k@ step=102")
  else call("kdf_input_bytes @ step=102 data=" $3)
  derive(what, $6, cut)
}

# The rest of a derivation: its output is the text, and then it is aborted.
function derive(what, text, cut,   i, wrong, rest) {
  if (what ~ /gives key$/) {
    if (cut > 0) call("kdf_output_bytes @ len=" cut, "is " substr(text, 1, 2 * cut))
    rest = substr(text, 2 * cut + 1)
    call("kdf_output_key @ d@ type=1001 bits=" 4 * length(rest) " usage=1 alg=0", "key")
    call("export $d@", "is " rest)
    call("destroy $d@")
  } else {
    cut_up(turned(text), cut)
    for (i = 1; i <= pieces; i++) wrong[i] = piece[i]
    cut_up(text, cut)
    for (i = 1; i <= pieces; i++)
      if (piece[i] != "") {
        if (what ~ /bytes$/) call("kdf_output_bytes @ len=" length(piece[i]) / 2, "is " piece[i])
        if (what ~ /verifies$/) call("kdf_verify_bytes @ data=" piece[i])
        if (what ~ /refuse$/)
          call("kdf_verify_bytes @ data=" wrong[i], "none", wrong[i] == piece[i] ? "" : "INVALID_SIGNATURE")
      }
  }
  call("abort @")
  if (what ~ /^key/) call("destroy $k@")
  end()
}

# --- texts and their pieces

function written_out(field,   texts, count, run, i, text) {
  count = split(field, texts, ",")
  for (i = 1; i <= count; i++) text = text (split(texts[i], run, "*") == 2 ? repeated(run[1], run[2]) : texts[i])
  return text
}

function repeated(text, times,   half) {
  if (times < 1) return ""
  half = repeated(text, int(times / 2))
  return half half (times % 2 ? text : "")
}

# The last place of the first three blocks.
function last_cut(text, block) {
  return length(text) / 2 < 3 * block ? length(text) / 2 : 3 * block
}

function label(cut) {
  return cut == byte_by_byte ? "byte by byte" : cut == whole ? "whole" : "cut at " cut
}

# Cuts a text into `piece`, 1 to `pieces`. Two pieces are two even where one of them is empty; a whole text without a
# byte is none.
function cut_up(text, cut,   i) {
  pieces = 0
  if (cut == byte_by_byte)
    for (i = 1; i < length(text); i += 2) piece[++pieces] = substr(text, i, 2)
  else if (cut == whole) {
    if (text != "") piece[++pieces] = text
  } else {
    piece[++pieces] = substr(text, 1, 2 * cut)
    piece[++pieces] = substr(text, 2 * cut + 1)
  }
}

# A text with one bit turned: in each case another one.
function turned(text,   bit, place, digit, value) {
  bit = 37 * cases % (4 * length(text))
  place = int(bit / 4)
  value = substr("1248", bit % 4 + 1, 1) + 0
  digit = index("0123456789abcdef", substr(text, place + 1, 1)) - 1
  digit += int(digit / value) % 2 ? -value : value
  return substr(text, 1, place) substr("0123456789abcdef", digit + 1, 1) substr(text, place + 2)
}

# --- lines

function begin(name) {
  case_name = name
  steps = 0
  size = 0
}

# A call of this case. Where no bytes are named it answers none, and where no status is, SUCCESS.
function call(words, due, status,   command) {
  command = words
  sub(/ .*/, "", command)
  step[++steps] = words
  due_of[steps] = case_name "\t" command "\t" (status == "" ? "SUCCESS" : status) "\t" (due == "" ? "none" : due)
  size += length(words) + 4
}

# A call for each piece of a text, or several where it is longer than a call may be.
function give(words, text, cut, due,   i, from) {
  cut_up(text, cut)
  for (i = 1; i <= pieces; i++) {
    from = 1
    do {
      call(words substr(piece[i], from, most_digits), due)
      from += most_digits
    } while (from <= length(piece[i]))
  }
}

function end(   slot, i) {
  if (lines + steps > most_lines || all_size + size > most_bytes) flush()
  slot = cases++ % 64
  for (i = 1; i <= steps; i++) {
    queue[slot, ++queued[slot]] = step[i]
    due_in[slot, queued[slot]] = due_of[i]
  }
  lines += steps
  all_size += size
}

function flush(   place, slot, session, words, calls, due, i) {
  if (!lines) return
  scripts++
  for (place = 1; lines > 0; place++)
    for (slot = 0; slot < 64; slot++)
      if (place <= queued[slot]) {
        session = slot % 16 + 1
        words = queue[slot, place]
        gsub(/@/, int(slot / 16) + 1, words)
        print session, words >(out "-" scripts ".script")
        due[session, ++calls[session]] = due_in[slot, place]
        lines--
      }
  for (session = 1; session <= 16; session++)
    for (i = 1; i <= calls[session]; i++) print session "." i "\t" due[session, i] >(out "-" scripts ".due")
  close(out "-" scripts ".script")
  close(out "-" scripts ".due")
  split("", queue)
  split("", queued)
  split("", due_in)
  all_size = 0
}
