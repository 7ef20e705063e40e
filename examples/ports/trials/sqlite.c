/* SQLite in memory: recursion, an index, sums, text, JSON, an error, the check of the whole file. */
#include <stdio.h>
#include "sqlite3.h"

static const char *const STATEMENTS[] = {
    "create table t(a integer primary key, b text, c real)",
    "with recursive n(i) as (select 1 union all select i + 1 from n where i < 20000) insert into t select i, 'row' || i, i * 1.5 from n",
    "select count(*), sum(c), avg(a), max(b) from t",
    "create index ti on t(b)",
    "select * from t where b like 'row499%' order by c desc limit 5",
    "select a % 7 as m, count(*), group_concat(a, ',') from t where a < 40 group by m",
    "select round(3.14159, 2), abs(-5), hex('ab'), printf('%.3f', 2.0 / 3), 9223372036854775807 + 1",
    "update t set c = c * 2 where a between 10 and 20",
    "select total(c) from t",
    "explain query plan select * from t where b = 'row5'",
    "select bad syntax here",
    "pragma integrity_check",
    "select json_extract('{\"a\": [1, 2, {\"b\": 3}]}', '$.a[2].b')",
};

static int row(void *data, int count, char **values, char **names) {
    (void)data, (void)names;
    for (int i = 0; i < count; i++) printf("%s%s", i ? "|" : "", values[i] ? values[i] : "NULL");
    printf("\n");
    return 0;
}

int main(void) {
    sqlite3 *database;
    char *fault = NULL;
    printf("%d %s\n", sqlite3_open(":memory:", &database), sqlite3_libversion());
    for (unsigned i = 0; i < sizeof STATEMENTS / sizeof *STATEMENTS; i++) {
        int status = sqlite3_exec(database, STATEMENTS[i], row, NULL, &fault);
        if (status) printf("error %d: %s\n", status, fault);
    }
    sqlite3_close(database);
    return 0;
}
