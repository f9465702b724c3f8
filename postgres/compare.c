/* Comparisons, hashes and the digest: PostgreSQL's own of bytea. They are named here, since a function in LANGUAGE internal
 * is looked for by its name among all of the server's, each time that an exclusion constraint checks a row. */
#include "wkt_pg.h"

#if PG_VERSION_NUM >= 140000
#include "common/cryptohash.h"
#include "common/sha2.h"
#endif
#include "utils/fmgrprotos.h"

#define IS_NOW(name, other) \
    PG_FUNCTION_INFO_V1(name); \
    Datum name(PG_FUNCTION_ARGS) { return other(fcinfo); }
IS_NOW(pg_wkt_cmp, byteacmp)
IS_NOW(pg_wkt_eq, byteaeq)
IS_NOW(pg_wkt_ne, byteane)
IS_NOW(pg_wkt_lt, bytealt)
IS_NOW(pg_wkt_le, byteale)
IS_NOW(pg_wkt_gt, byteagt)
IS_NOW(pg_wkt_ge, byteage)
IS_NOW(pg_wkt_hash, hashvarlena)
IS_NOW(pg_wkt_hash_extended, hashvarlenaextended)

/* Of a long text a part at a time, and a cancel ends it between two. The context belongs to the transaction. */
PG_FUNCTION_INFO_V1(pg_wkt_digest);
Datum pg_wkt_digest(PG_FUNCTION_ARGS) {
#if PG_VERSION_NUM >= 140000
    text *held = PG_GETARG_TEXT_PP(0);
    const uint8 *at = (const uint8 *)VARDATA_ANY(held), *end = at + VARSIZE_ANY_EXHDR(held);
    if (end - at >= LONG_CALL) {
        pg_cryptohash_ctx *context = pg_cryptohash_create(PG_SHA256);
        bytea *made = palloc(VARHDRSZ + PG_SHA256_DIGEST_LENGTH);
        int failed = pg_cryptohash_init(context);
        for (; failed == 0 && at < end; at += Min(end - at, LONG_CALL)) {
            CHECK_FOR_INTERRUPTS();
            failed = pg_cryptohash_update(context, at, Min(end - at, LONG_CALL));
        }
        if (failed != 0 || pg_cryptohash_final(context, (uint8 *)VARDATA(made), PG_SHA256_DIGEST_LENGTH) != 0)
            ereport(ERROR, (errcode(ERRCODE_INTERNAL_ERROR), errmsg("the server gives no SHA-256")));
        pg_cryptohash_free(context);
        SET_VARSIZE(made, VARHDRSZ + PG_SHA256_DIGEST_LENGTH);
        PG_RETURN_BYTEA_P(made);
    }
#endif
    return sha256_bytea(fcinfo);
}
