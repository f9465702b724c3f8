/* A statement with a parameter, sent and answered in text (0) or in binary (1): params FORMAT SQL TEXT [OID-OF-ITS-TYPE] */
#include <libpq-fe.h>
#include <stdio.h>
#include <stdlib.h>
#include <string.h>

int main(int count, char **given) {
    if (count < 4) return 2;
    int format = atoi(given[1]), length = (int)strlen(given[3]);
    Oid type = count > 4 ? (Oid)atoi(given[4]) : 0; /* 0: the server finds it */
    const char *text = given[3];
    PGconn *connection = PQconnectdb("");
    PGresult *result = PQexecParams(connection, given[2], 1, &type, &text, &length, &format, format);
    ExecStatusType status = PQresultStatus(result);

    if (status == PGRES_TUPLES_OK && PQntuples(result) == 1)
        printf("%.*s\n", PQgetlength(result, 0, 0), PQgetvalue(result, 0, 0));
    else if (status != PGRES_COMMAND_OK)
        printf("%s", PQerrorMessage(connection));
    PQclear(result);
    PQfinish(connection);
    return 0;
}
