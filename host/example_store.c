/* Keeps a cabinet in a file of SQLite, and answers request records from it. What a permit charges is on the disk before the permit is acted on:
 * save, then act.
 *     example_store STORE KM0 ACL REQUESTS
 * If STORE is not there it is made: a fresh cabinet with the key of KM0 and ACL in slot 0, loaded at 0. Any number of processes may use it at the same
 * time. The cabinet is encoded as `akubolinfe.encoding` of the Python package encodes it: big-endian, with the ABI and a SHA-256. */
#include <sqlite3.h>
#include <stdio.h>
#include <string.h>

#include "akubolinfe.h"

#define HEADER_BYTES 16
#define BODY_BYTES (AKUBOLINFE_SLOTS * (4 * AKUBOLINFE_GROUPS + 16) + 4 * AKUBOLINFE_COUNTERS)
#define DIGEST_BYTES 32
#define ENCODED_BYTES (HEADER_BYTES + BODY_BYTES + DIGEST_BYTES)

typedef struct {
    uint8_t bytes[131072];
    size_t length;
} file;

/* What the file holds: the cabinet, and the KM0 hash and the ACL in force of the key in slot 0. */
typedef struct {
    akubolinfe_cabinet cabinet;
    file km0, acl;
} state;

/* SHA-256, FIPS 180-4. */
static const uint32_t round_constants[64] = {
    0x428a2f98, 0x71374491, 0xb5c0fbcf, 0xe9b5dba5, 0x3956c25b, 0x59f111f1, 0x923f82a4, 0xab1c5ed5, 0xd807aa98, 0x12835b01, 0x243185be,
    0x550c7dc3, 0x72be5d74, 0x80deb1fe, 0x9bdc06a7, 0xc19bf174, 0xe49b69c1, 0xefbe4786, 0x0fc19dc6, 0x240ca1cc, 0x2de92c6f, 0x4a7484aa,
    0x5cb0a9dc, 0x76f988da, 0x983e5152, 0xa831c66d, 0xb00327c8, 0xbf597fc7, 0xc6e00bf3, 0xd5a79147, 0x06ca6351, 0x14292967, 0x27b70a85,
    0x2e1b2138, 0x4d2c6dfc, 0x53380d13, 0x650a7354, 0x766a0abb, 0x81c2c92e, 0x92722c85, 0xa2bfe8a1, 0xa81a664b, 0xc24b8b70, 0xc76c51a3,
    0xd192e819, 0xd6990624, 0xf40e3585, 0x106aa070, 0x19a4c116, 0x1e376c08, 0x2748774c, 0x34b0bcb5, 0x391c0cb3, 0x4ed8aa4a, 0x5b9cca4f,
    0x682e6ff3, 0x748f82ee, 0x78a5636f, 0x84c87814, 0x8cc70208, 0x90befffa, 0xa4506ceb, 0xbef9a3f7, 0xc67178f2};

static uint32_t turned(uint32_t word, int bits)
{
    return word >> bits | word << (32 - bits);
}

static uint8_t *put(uint8_t *to, uint64_t number, int bytes)
{
    for (int k = 0; k < bytes; k++)
        to[k] = (uint8_t)(number >> 8 * (bytes - 1 - k));
    return to + bytes;
}

static uint64_t get(const uint8_t **from, int bytes)
{
    uint64_t number = 0;
    for (int k = 0; k < bytes; k++)
        number = number << 8 | *(*from)++;
    return number;
}

static void hash_block(uint32_t hash[8], const uint8_t *block)
{
    uint32_t w[64], v[8];
    for (int k = 0; k < 16; k++)
        w[k] = (uint32_t)get(&block, 4);
    for (int k = 16; k < 64; k++)
        w[k] = w[k - 16] + (turned(w[k - 15], 7) ^ turned(w[k - 15], 18) ^ w[k - 15] >> 3) + w[k - 7]
               + (turned(w[k - 2], 17) ^ turned(w[k - 2], 19) ^ w[k - 2] >> 10);
    memcpy(v, hash, sizeof v);
    for (int k = 0; k < 64; k++) {
        uint32_t first = v[7] + (turned(v[4], 6) ^ turned(v[4], 11) ^ turned(v[4], 25)) + ((v[4] & v[5]) ^ (~v[4] & v[6]))
                         + round_constants[k] + w[k];
        uint32_t second = (turned(v[0], 2) ^ turned(v[0], 13) ^ turned(v[0], 22)) + ((v[0] & v[1]) ^ (v[0] & v[2]) ^ (v[1] & v[2]));
        memmove(v + 1, v, 7 * sizeof *v);
        v[4] += first;
        v[0] = first + second;
    }
    for (int k = 0; k < 8; k++)
        hash[k] += v[k];
}

static void sha256(const uint8_t *bytes, size_t length, uint8_t digest[DIGEST_BYTES])
{
    uint32_t hash[8] = {0x6a09e667, 0xbb67ae85, 0x3c6ef372, 0xa54ff53a, 0x510e527f, 0x9b05688c, 0x1f83d9ab, 0x5be0cd19};
    uint8_t end[128] = {0};
    size_t whole = length / 64 * 64, rest = length - whole, ends = rest < 56 ? 64 : 128;
    for (size_t at = 0; at < whole; at += 64)
        hash_block(hash, bytes + at);
    memcpy(end, bytes + whole, rest);
    end[rest] = 0x80;
    put(end + ends - 8, (uint64_t)length * 8, 8);
    for (size_t at = 0; at < ends; at += 64)
        hash_block(hash, end + at);
    for (int k = 0; k < 8; k++)
        digest = put(digest, hash[k], 4);
}

static void encode_header(uint8_t *to)
{
    memcpy(to, "AKUB", 4);
    to = put(to + 4, 1, 2);
    to = put(to, 2, 2);
    to = put(to, AKUBOLINFE_ABI, 4);
    put(to, BODY_BYTES, 4);
}

static void encode(const akubolinfe_cabinet *cabinet, uint8_t encoded[ENCODED_BYTES])
{
    encode_header(encoded);
    uint8_t *to = encoded + HEADER_BYTES;
    for (size_t s = 0; s < AKUBOLINFE_SLOTS; s++) {
        const akubolinfe_slot *slot = &cabinet->slots[s];
        for (size_t g = 0; g < AKUBOLINFE_GROUPS; g++)
            to = put(to, slot->counts[g], 4);
        to = put(to, slot->loaded, 8);
        to = put(to, slot->last, 8);
    }
    for (size_t c = 0; c < AKUBOLINFE_COUNTERS; c++)
        to = put(to, cabinet->counters[c], 4);
    sha256(encoded, HEADER_BYTES + BODY_BYTES, to);
}

/* Whether the bytes are the encoding of a cabinet by this ABI. */
static int decode(const uint8_t *encoded, size_t length, akubolinfe_cabinet *cabinet)
{
    uint8_t header[HEADER_BYTES], digest[DIGEST_BYTES];
    if (length != ENCODED_BYTES)
        return 0;
    encode_header(header);
    sha256(encoded, HEADER_BYTES + BODY_BYTES, digest);
    if (memcmp(encoded, header, sizeof header) != 0 || memcmp(encoded + HEADER_BYTES + BODY_BYTES, digest, sizeof digest) != 0)
        return 0;
    const uint8_t *from = encoded + HEADER_BYTES;
    for (size_t s = 0; s < AKUBOLINFE_SLOTS; s++) {
        akubolinfe_slot *slot = &cabinet->slots[s];
        for (size_t g = 0; g < AKUBOLINFE_GROUPS; g++)
            slot->counts[g] = (uint32_t)get(&from, 4);
        slot->loaded = get(&from, 8);
        slot->last = get(&from, 8);
    }
    for (size_t c = 0; c < AKUBOLINFE_COUNTERS; c++)
        cabinet->counters[c] = (uint32_t)get(&from, 4);
    return 1;
}

/* Prints what SQLite says is wrong. */
static int failed(sqlite3 *db, const char *what)
{
    fprintf(stderr, "%s: %s\n", what, sqlite3_errmsg(db));
    return 0;
}

static int execute(sqlite3 *db, const char *statement)
{
    return sqlite3_exec(db, statement, NULL, NULL, NULL) == SQLITE_OK || failed(db, statement);
}

/* Writes the state. After a narrowing or an expansion cabinet and ACL change together, here. */
static int save(sqlite3 *db, const state *s)
{
    static const char *statement = "INSERT OR REPLACE INTO cabinet (id, state, km0, acl) VALUES (1, ?, ?, ?)";
    static uint8_t encoded[ENCODED_BYTES];
    sqlite3_stmt *prepared;
    encode(&s->cabinet, encoded);
    if (sqlite3_prepare_v2(db, statement, -1, &prepared, NULL) != SQLITE_OK)
        return failed(db, statement);
    int done = sqlite3_bind_blob(prepared, 1, encoded, ENCODED_BYTES, SQLITE_STATIC) == SQLITE_OK
               && sqlite3_bind_blob(prepared, 2, s->km0.bytes, (int)s->km0.length, SQLITE_STATIC) == SQLITE_OK
               && sqlite3_bind_blob(prepared, 3, s->acl.bytes, (int)s->acl.length, SQLITE_STATIC) == SQLITE_OK
               && sqlite3_step(prepared) == SQLITE_DONE;
    if (!done)
        failed(db, statement);
    sqlite3_finalize(prepared);
    return done;
}

static int column(sqlite3_stmt *prepared, int number, file *into)
{
    size_t length = (size_t)sqlite3_column_bytes(prepared, number);
    if (sizeof into->bytes < length)
        return 0;
    into->length = length;
    if (length != 0)
        memcpy(into->bytes, sqlite3_column_blob(prepared, number), length);
    return 1;
}

/* Reads the state. 1 if it is there, 0 if no state is there yet, -1 if it cannot be read or is damaged. */
static int read_state(sqlite3 *db, state *s)
{
    static const char *statement = "SELECT state, km0, acl FROM cabinet WHERE id = 1";
    static file encoded;
    sqlite3_stmt *prepared;
    if (sqlite3_prepare_v2(db, statement, -1, &prepared, NULL) != SQLITE_OK)
        return failed(db, statement) - 1;
    int found = sqlite3_step(prepared), result = 0;
    if (found == SQLITE_ROW) {
        result = column(prepared, 0, &encoded) && column(prepared, 1, &s->km0) && column(prepared, 2, &s->acl)
                 && decode(encoded.bytes, encoded.length, &s->cabinet) ? 1 : -1;
        if (result < 0)
            fprintf(stderr, "the state is damaged\n");
    } else if (found != SQLITE_DONE) {
        result = failed(db, statement) - 1;
    }
    sqlite3_finalize(prepared);
    return result;
}

/* One call is one transaction: lock, read, ask, save, commit. The reply is good only if this returns 1; then what it charged is durable. */
static int ask(sqlite3 *db, const uint8_t *request, akubolinfe_reply *reply)
{
    static state s;
    if (!execute(db, "BEGIN IMMEDIATE"))
        return 0;
    int done = read_state(db, &s) == 1;
    if (done) {
        *reply = akubolinfe_cabinet_request_in_place(&s.cabinet, 0, s.km0.bytes, s.km0.length, s.acl.bytes, s.acl.length, request,
                                                     AKUBOLINFE_RECORD);
        done = (reply->refusal != 0 || save(db, &s)) && execute(db, "COMMIT");
    }
    if (!done)
        sqlite3_exec(db, "ROLLBACK", NULL, NULL, NULL);
    return done;
}

static int read_file(const char *name, file *into)
{
    FILE *f = fopen(name, "rb");
    if (f == NULL) {
        perror(name);
        return 0;
    }
    into->length = fread(into->bytes, 1, sizeof into->bytes, f);
    int done = !ferror(f);
    if (!done)
        perror(name);
    fclose(f);
    return done;
}

/* Opens the file so that COMMIT returns when the data is on the disk, and makes the state if none is there. */
static int open_store(const char *name, const char *km0, const char *acl, sqlite3 **db)
{
    static state s;
    if (sqlite3_open(name, db) != SQLITE_OK)
        return failed(*db, name);
    sqlite3_busy_timeout(*db, 60000);
    if (!execute(*db, "PRAGMA journal_mode = WAL") || !execute(*db, "PRAGMA synchronous = FULL") || !execute(*db, "BEGIN IMMEDIATE")
        || !execute(*db, "CREATE TABLE IF NOT EXISTS cabinet (id INTEGER PRIMARY KEY, state BLOB, km0 BLOB, acl BLOB)"))
        return 0;
    int found = read_state(*db, &s);
    if (found == 0) {
        s.cabinet = akubolinfe_cabinet_fresh();
        found = read_file(km0, &s.km0) && read_file(acl, &s.acl) && akubolinfe_cabinet_load_in_place(&s.cabinet, 0, 0).refusal == 0
                && save(*db, &s);
    }
    return found == 1 && execute(*db, "COMMIT");
}

int main(int count, char **words)
{
    static file requests;
    sqlite3 *db = NULL;
    akubolinfe_reply reply;
    if (count != 5) {
        fprintf(stderr, "usage: example_store STORE KM0 ACL REQUESTS\n");
        return 2;
    }
    int done = read_file(words[4], &requests) && open_store(words[1], words[2], words[3], &db);
    for (size_t at = 0; done && AKUBOLINFE_RECORD <= requests.length - at; at += AKUBOLINFE_RECORD) {
        done = ask(db, requests.bytes + at, &reply);
        if (!done)
            break;
        /* Here, and not before, the host acts: it is permitted, and a crash from now on loses no charge. */
        printf("%zu %s", at / AKUBOLINFE_RECORD + 1, reply.refusal == 0 ? "permit" : "refuse");
        if (reply.refusal != 0)
            printf(" %u", (unsigned)reply.refusal);
        if (reply.group != AKUBOLINFE_NO_GROUP)
            printf(" %u", (unsigned)reply.group);
        printf("\n");
    }
    sqlite3_close(db);
    return done ? 0 : 2;
}
