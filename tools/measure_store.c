/* How fast C SQLite does what the store does: the same tables and index, the same statements, each prepared once.

     cc -O2 -o measure_store tools/measure_store.c -lsqlite3
     measure_store make FILE MEMBERS               makes a file of so many members, each with ten links
     measure_store FILE MEMBERS COUNT [PRAGMAS]    measures in a file that it makes first
     measure_store :memory: MEMBERS COUNT          measures in memory

   It prints a line for each thing that was done COUNT times: its name, and how many a second. tools/measure_store.py
   runs it beside the program, which is given the same things to do. */
#include <sqlite3.h>
#include <stdint.h>
#include <stdio.h>
#include <stdlib.h>
#include <string.h>
#include <time.h>

enum state { PENDING, FRIEND, BLOCK };

static const int FILLED[] = {1, 7, 31, 101, 307};
static const int OFFERED[] = {2, 3, 5, 11, 13, 17, 19, 23};

static sqlite3 *db;
static int members;
static sqlite3_stmt *name_of, *links_from, *links_to, *links_between, *put_link, *take_link, *set_name;
static sqlite3_stmt *begin, *commit, *rollback;
static char text[600000];

static void fail(const char *what)
{
    fprintf(stderr, "measure_store: %s: %s\n", what, sqlite3_errmsg(db));
    exit(1);
}

static void run(const char *sql)
{
    if (sqlite3_exec(db, sql, 0, 0, 0) != SQLITE_OK)
        fail(sql);
}

static sqlite3_stmt *prepared(const char *sql)
{
    sqlite3_stmt *made;
    if (sqlite3_prepare_v2(db, sql, -1, &made, 0) != SQLITE_OK)
        fail(sql);
    return made;
}

static void done(sqlite3_stmt *statement)
{
    int code = sqlite3_step(statement);
    sqlite3_reset(statement);
    if (code != SQLITE_DONE)
        fail(sqlite3_sql(statement));
}

static double now(void)
{
    struct timespec time;
    clock_gettime(CLOCK_MONOTONIC, &time);
    return time.tv_sec + time.tv_nsec / 1e9;
}

static int least(int a, int b) { return a < b ? a : b; }

static int most(int a, int b) { return a < b ? b : a; }

/* The member that stands so many places behind another, round about. */
static int behind(int a, int places) { return (a - 1 + places) % members + 1; }

/* The pair of this number: no two are the same, and none has a link at the start. */
static void pair(int number, int *a, int *b)
{
    *a = (int)((int64_t)number * 7919 % members) + 1;
    *b = behind(*a, OFFERED[number / members % 8]);
}

/* A member of this number, in no order. */
static int any(int number) { return (int)((int64_t)number * 40503 % members) + 1; }

static int find_name(int id)
{
    int found = 0;
    sqlite3_bind_int(name_of, 1, id);
    while (sqlite3_step(name_of) == SQLITE_ROW)
        found = snprintf(text, sizeof text, "%s", (const char *)sqlite3_column_text(name_of, 0));
    sqlite3_reset(name_of);
    return found;
}

/* How many links of a member with one end there are of a state. */
struct seen {
    int counts[3];
};

static void look(sqlite3_stmt *statement, int end, int id, int wanted, int *at, struct seen *seen)
{
    sqlite3_bind_int(statement, 1, id);
    while (sqlite3_step(statement) == SQLITE_ROW) {
        int found = sqlite3_column_int(statement, end), state = sqlite3_column_int(statement, 2);
        seen->counts[state]++;
        if (state == wanted)
            *at += snprintf(text + *at, sizeof text - *at, *at ? ",%d" : "%d", found);
    }
    sqlite3_reset(statement);
}

static void answer(int kind, int id)
{
    struct seen from = {0}, to = {0};
    int at = 0, is_list = kind == 1 || kind == 2 || kind == 5;
    int wanted = !is_list ? -1 : kind == 1 ? FRIEND : kind == 2 ? PENDING : BLOCK;
    if (kind == 0)
        at = find_name(id);
    if (kind != 2 && kind != 4)
        look(links_from, 1, id, wanted, &at, &from);
    if (kind != 5)
        look(links_to, 0, id, wanted, &at, &to);
    if (kind == 0)
        snprintf(text + at, sizeof text - at, " %d %d", from.counts[FRIEND] + to.counts[FRIEND], to.counts[PENDING]);
    if (kind == 3 || kind == 4)
        snprintf(text, sizeof text, "%d", kind == 3 ? from.counts[FRIEND] + to.counts[FRIEND] : to.counts[PENDING]);
}

static int leads(int a, int b)
{
    sqlite3_bind_int(links_between, 1, a);
    sqlite3_bind_int(links_between, 2, b);
    int found = sqlite3_step(links_between) == SQLITE_ROW && sqlite3_column_int(links_between, 1) == b;
    sqlite3_reset(links_between);
    return found;
}

static void put(int a, int b, int state)
{
    sqlite3_bind_int(put_link, 1, a);
    sqlite3_bind_int(put_link, 2, b);
    sqlite3_bind_int(put_link, 3, state);
    done(put_link);
}

static void take(int a, int b)
{
    sqlite3_bind_int(take_link, 1, a);
    sqlite3_bind_int(take_link, 2, b);
    done(take_link);
}

static int are_free(int a, int b)
{
    return find_name(a) && find_name(b) && !leads(a, b) && !leads(b, a);
}

static int invite(int a, int b)
{
    int applies = are_free(a, b);
    if (applies)
        put(a, b, PENDING);
    return applies;
}

static int block(int a, int b)
{
    int applies = are_free(a, b);
    if (applies)
        put(a, b, BLOCK);
    return applies;
}

static int accept(int a, int b)
{
    int applies = leads(a, b);
    if (applies) {
        take(a, b);
        put(least(a, b), most(a, b), FRIEND);
    }
    return applies;
}

static int reject(int a, int b)
{
    int applies = leads(a, b);
    if (applies)
        take(a, b);
    return applies;
}

static int thaw(int a, int b) { return reject(least(a, b), most(a, b)); }

static int rename_first(int a, int b)
{
    char name[16];
    if (!find_name(a))
        return 0;
    snprintf(name, sizeof name, "n%d", b);
    sqlite3_bind_int(set_name, 1, a);
    sqlite3_bind_text(set_name, 2, name, -1, SQLITE_TRANSIENT);
    done(set_name);
    return 1;
}

static void fill(void)
{
    char name[16];
    run("CREATE TABLE member(id INTEGER PRIMARY KEY, name TEXT NOT NULL) STRICT;"
        "CREATE TABLE link(a INTEGER NOT NULL, b INTEGER NOT NULL, st INTEGER NOT NULL CHECK(st IN (0, 1, 2)), "
        "PRIMARY KEY(a, b)) STRICT;"
        "CREATE INDEX link_by_b ON link(b, a); BEGIN");
    put_link = prepared("INSERT INTO link(a, b, st) VALUES(?1, ?2, ?3)");
    sqlite3_stmt *put_member = prepared("INSERT INTO member(id, name) VALUES(?1, ?2)");
    for (int a = 1; a <= members; a++) {
        snprintf(name, sizeof name, "m%d", a);
        sqlite3_bind_int(put_member, 1, a);
        sqlite3_bind_text(put_member, 2, name, -1, SQLITE_TRANSIENT);
        done(put_member);
    }
    sqlite3_finalize(put_member);
    for (int a = 1; a <= members; a++)
        for (int at = 0; at < 5; at++) {
            int b = behind(a, FILLED[at]);
            if (at % 2)
                put(a, b, PENDING);
            else
                put(least(a, b), most(a, b), FRIEND);
        }
    run("COMMIT");
}

static void prepare(void)
{
    name_of = prepared("SELECT name FROM member WHERE id = ?1");
    links_from = prepared("SELECT a, b, st FROM link WHERE a = ?1 ORDER BY a, b");
    links_to = prepared("SELECT a, b, st FROM link WHERE b = ?1 ORDER BY a, b");
    links_between = prepared("SELECT a, b, st FROM link WHERE a = ?1 AND b = ?2 ORDER BY a, b");
    take_link = prepared("DELETE FROM link WHERE a = ?1 AND b = ?2");
    set_name = prepared("UPDATE member SET name = ?2 WHERE id = ?1");
    begin = prepared("BEGIN");
    commit = prepared("COMMIT");
    rollback = prepared("ROLLBACK");
}

static void tell(const char *name, int count, double began)
{
    printf("%s %.0f\n", name, count / (now() - began));
    fflush(stdout);
}

/* Makes a change of each pair between two numbers, each in a transaction of its own. */
static void measure(const char *name, int (*change)(int, int), int from, int to)
{
    double began = now();
    for (int number = from; number < to; number++) {
        int a, b;
        pair(number, &a, &b);
        done(begin);
        if (!change(a, b))
            fail(name);
        done(commit);
    }
    tell(name, to - from, began);
}

static void measure_after(int count)
{
    double began = now();
    for (int number = 0; number < count; number++) {
        int a, b;
        pair(number, &a, &b);
        done(begin);
        if (!invite(a, b))
            fail("after");
        answer(0, b);
        done(rollback);
    }
    tell("after", count, began);
}

static void measure_all(int count)
{
    static const char *kinds[] = {"profile", "friends", "pending", "nfriends", "npending", "blocked"};
    for (int kind = 0; kind < 6; kind++) {
        double began = now();
        for (int number = 0; number < count; number++)
            answer(kind, any(number));
        tell(kinds[kind], count, began);
    }
    measure_after(count);
    measure("invite", invite, 0, count);
    measure("accept", accept, 0, count / 2);
    measure("reject", reject, count / 2, count);
    measure("thaw", thaw, 0, count / 2);
    measure("block", block, 0, count);
    measure("rename", rename_first, 0, count);
}

int main(int count, char **words)
{
    int makes = count == 4 && !strcmp(words[1], "make");
    if (count < 4)
        return 2;
    members = atoi(words[makes ? 3 : 2]);
    if (sqlite3_open(words[makes ? 2 : 1], &db) != SQLITE_OK)
        fail("open");
    if (count > 4)
        run(words[4]);
    fill();
    if (!makes) {
        prepare();
        measure_all(atoi(words[3]));
    }
    return 0;
}
