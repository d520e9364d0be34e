/* The calls of bench/scripts/generator.awk by Mbed TLS in one thread: what a run of those lines is compared with, and does as
 * that does. It reads all lines on standard input, makes each line's call, and prints a reply a line, one session's after
 * another's: session and number, rank, status and, in hex, what the call gave. A line that bench/scripts/generator.awk doesn't
 * write ends it with status 2.
 *
 *   cc -O2 -o generator_by_mbedtls bench/generator_by_mbedtls.c -lmbedcrypto
 */
#include <psa/crypto.h>
#include <stdint.h>
#include <stdio.h>
#include <stdlib.h>
#include <string.h>

enum { SESSIONS = 16, DATA_BYTES = 512, OUTPUT_BYTES = 1024 };

/* A text that grows. */
struct text {
    char *bytes;
    size_t length, room;
};

/* What a session's line may name: the key that it made last; and its replies. */
struct session {
    psa_key_id_t key;
    unsigned replies;
    struct text text;
};

/* The fields of a line. */
struct fields {
    uint32_t type, usage, algorithm;
    uint8_t data[DATA_BYTES];
    size_t length;
};

/* What a call gave. */
struct reply {
    psa_status_t status;
    uint8_t bytes[OUTPUT_BYTES];
    size_t length;
};

static void refuse(const char *why)
{
    fprintf(stderr, "generator_by_mbedtls: %s\n", why);
    exit(2);
}

/* Makes room for so many bytes behind a text, and gives the place of the first. */
static char *room_behind(struct text *text, size_t more)
{
    if (text->room - text->length < more) {
        text->room = 2 * text->room + more;
        text->bytes = realloc(text->bytes, text->room);
        if (text->bytes == NULL)
            refuse("out of memory");
    }
    return text->bytes + text->length;
}

/* All of standard input, and a zero behind it. */
static char *read_all(void)
{
    static struct text text;
    size_t more;
    while ((more = fread(room_behind(&text, 65536), 1, 65536, stdin)) != 0)
        text.length += more;
    *room_behind(&text, 1) = 0;
    return text.bytes;
}

static int digit(char c)
{
    if ('0' <= c && c <= '9')
        return c - '0';
    if ('a' <= c && c <= 'f')
        return c - 'a' + 10;
    refuse("a digit isn't one");
    return 0;
}

static void decode(struct fields *fields, const char *text)
{
    for (fields->length = 0; *text && fields->length < sizeof fields->data; text += 2)
        fields->data[fields->length++] = digit(text[0]) << 4 | digit(text[1]);
}

/* Reads the words after a command, but for the key's. */
static void read_fields(struct fields *fields, char **rest)
{
    char *word;
    while ((word = strtok_r(NULL, " ", rest)) != NULL) {
        char *text = strchr(word, '=');
        if (text == NULL)
            refuse("a word is no field");
        *text++ = 0;
        if (strcmp(word, "type") == 0)
            fields->type = strtoul(text, NULL, 16);
        else if (strcmp(word, "usage") == 0)
            fields->usage = strtoul(text, NULL, 16);
        else if (strcmp(word, "alg") == 0)
            fields->algorithm = strtoul(text, NULL, 16);
        else if (strcmp(word, "data") == 0)
            decode(fields, text);
        else
            refuse("a field isn't known");
    }
}

static void import_key(struct session *session, const struct fields *fields, struct reply *reply)
{
    psa_key_attributes_t attributes = PSA_KEY_ATTRIBUTES_INIT;
    psa_set_key_type(&attributes, fields->type);
    psa_set_key_usage_flags(&attributes, fields->usage);
    psa_set_key_algorithm(&attributes, fields->algorithm);
    reply->status = psa_import_key(&attributes, fields->data, fields->length, &session->key);
    for (int shift = 24; reply->status == PSA_SUCCESS && 0 <= shift; shift -= 8)
        reply->bytes[reply->length++] = session->key >> shift;
}

static void answer(struct session *session, const char *command, const struct fields *fields, struct reply *reply)
{
    if (strcmp(command, "import") == 0)
        import_key(session, fields, reply);
    else if (strcmp(command, "cipher_encrypt") == 0)
        reply->status = psa_cipher_encrypt(session->key, fields->algorithm, fields->data, fields->length, reply->bytes,
                                           OUTPUT_BYTES, &reply->length);
    else if (strcmp(command, "export") == 0)
        reply->status = psa_export_key(session->key, reply->bytes, OUTPUT_BYTES, &reply->length);
    else if (strcmp(command, "mac_compute") == 0)
        reply->status = psa_mac_compute(session->key, fields->algorithm, fields->data, fields->length, reply->bytes,
                                        OUTPUT_BYTES, &reply->length);
    else if (strcmp(command, "destroy") == 0)
        reply->status = psa_destroy_key(session->key);
    else
        refuse("a command isn't known");
}

static void keep(unsigned number, struct session *session, unsigned rank, const struct reply *reply)
{
    static const char digits[] = "0123456789abcdef";
    char *at = room_behind(&session->text, 2 * OUTPUT_BYTES + 64);
    at += sprintf(at, "%u.%u @%u ", number, session->replies, rank);
    if (reply->status == PSA_SUCCESS)
        at += sprintf(at, "SUCCESS");
    else if (reply->status == PSA_ERROR_NOT_PERMITTED)
        at += sprintf(at, "NOT_PERMITTED");
    else
        refuse("a status isn't one of the generator's");
    if (reply->length != 0 && reply->status == PSA_SUCCESS) {
        *at++ = ' ';
        for (size_t i = 0; i < reply->length; i++) {
            *at++ = digits[reply->bytes[i] >> 4];
            *at++ = digits[reply->bytes[i] & 15];
        }
    }
    *at++ = '\n';
    session->text.length = at - session->text.bytes;
}

int main(void)
{
    static struct session sessions[SESSIONS + 1];
    char *rest_of_lines;
    if (psa_crypto_init() != PSA_SUCCESS)
        refuse("Mbed TLS doesn't begin");
    char *line = strtok_r(read_all(), "\n", &rest_of_lines);
    for (unsigned rank = 0; line != NULL; rank++, line = strtok_r(NULL, "\n", &rest_of_lines)) {
        struct fields fields;
        struct reply reply;
        char *rest, *word = strtok_r(line, " ", &rest);
        unsigned number = word == NULL ? 0 : strtoul(word, NULL, 10);
        char *command = strtok_r(NULL, " ", &rest);
        if (number < 1 || SESSIONS < number || command == NULL)
            refuse("a line is no call");
        /* a name, or the key that the session made last */
        strtok_r(NULL, " ", &rest);
        fields.type = fields.usage = fields.algorithm = 0;
        fields.length = reply.length = 0;
        read_fields(&fields, &rest);
        sessions[number].replies++;
        answer(&sessions[number], command, &fields, &reply);
        keep(number, &sessions[number], rank, &reply);
    }
    mbedtls_psa_crypto_free();
    for (unsigned number = 1; number <= SESSIONS; number++)
        fwrite(sessions[number].text.bytes, 1, sessions[number].text.length, stdout);
    return fflush(stdout) == 0 ? 0 : 1;
}
