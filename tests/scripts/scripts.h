/* What the parts of tests/scripts share: texts that grow, dice, configurations, events, and the model. */
#ifndef SCRIPTS_H
#define SCRIPTS_H
#include <stddef.h>
#include <stdint.h>

/* ---- texts and dice: text.c */

typedef struct { unsigned char *at; size_t size, room; } Text;
void put(Text *text, const void *bytes, size_t size);
void put_byte(Text *text, int byte);
void say(Text *text, const char *form, ...) __attribute__((format(printf, 2, 3)));
void put_hex(Text *text, const unsigned char *bytes, size_t size);
void put_base64(Text *text, const char *bytes);
uint32_t checksum(const unsigned char *bytes, size_t size);

typedef struct { uint64_t state; } Dice;
uint64_t draw(Dice *dice);
unsigned below(Dice *dice, unsigned bound);
int chance(Dice *dice, unsigned percent);

/* ---- configurations */

enum { MOUNTS = 3, NEARS = 2, GROUPS = 3, USERS = 3, RELAYS = 2, TYPES = 4, NAME = 40 };

typedef struct { int is_all, count, number[TYPES]; } Types;
typedef struct { long lat, lon; } Position;
typedef struct {
    char name[NAME], password[NAME], identifier[NAME], details[NAME], misc[NAME];
    int ring, bitrate;
    Position at;
} Mount;
typedef struct { char name[NAME]; int count, base[MOUNTS]; } Near;
typedef struct {
    char name[NAME];
    int count, heard[MOUNTS + NEARS], filters, filter_mount[MOUNTS];
    Types types, filter[MOUNTS];
} Group;
typedef struct { char user[NAME], password[NAME]; int group, cap; } Account;
typedef struct {
    int mount, protocol, has_user;
    char address[NAME], upstream[NAME], user[NAME], password[NAME];
} Relay;
typedef struct {
    int mounts, nears, groups, accounts, relays, has_anonymous, anonymous_group, anonymous_cap, hysteresis;
    /* All groups hear everything, the first connections are the sources of all mountpoints, and most of the others
       are rovers that move: of the test alone. */
    int is_field;
    char record[NAME];
    Mount mount[MOUNTS];
    Near near[NEARS];
    Group group[GROUPS];
    Account account[USERS];
    Relay relay[RELAYS];
} World;

/* ---- events */

enum { SOURCE, ROVER, OPEN, RELAY, IN, TURN, BREAK, END };
enum { EVENTS = 400, LINKS = 16 };

/* `value` is the budget of a turn or the number of a relay; the bytes of IN are `size` ones from `from` on. */
typedef struct { int kind, number, value; char name[NAME]; size_t from, size; } Event;
typedef struct { Event event[EVENTS]; int count; Text bytes; } Script;

/* ---- what is drawn: draw.c and made.c */

void draw_world(Dice *dice, World *world);
void bare_world(World *world, int ring);
void world_text(const World *world, Text *text);
void draw_script(Dice *dice, const World *world, int is_bare, Script *script);
void made_script(uint64_t seed, int frames, int rovers, Script *script);
/* The text of a script, with lines that are skipped and ends of lines that are drawn. Where `fault` is set, one
   line of it is faulty, or `stop` is missing, and what the program is to say of that is in `said`. */
void script_text(Dice *dice, const Script *script, const World *world, int is_bare, int fault, Text *text, Text *said);

/* ---- heads: heads.c */

enum { BAD_HEAD, NO_METHOD, NO_CODING, ASKS_TABLE, ASKS_ROVER, ASKS_SOURCE };
enum { NOT_GIVEN, UNREAD, BASIC };
typedef struct {
    int kind, version, auth, is_chunked, has_position;
    char name[128], user[128], password[128];
    Position at;
} Request;
/* How many bytes the head at the front has; 0 where it is not whole. */
size_t head_size(const unsigned char *bytes, size_t size);
void read_request(const unsigned char *head, size_t size, Request *request);
int read_report(const unsigned char *line, size_t size, Position *at);
enum { GOES_ON, ACCEPTED, ACCEPTED_CHUNKED, IS_BAD, IS_LONG, IS_CODING, IS_TABLE, IS_STATUS };
/* What the answer of another caster says, how many bytes its head has, and its status. */
int read_answer(const unsigned char *bytes, size_t size, size_t *head, int *status);
void table_text(const World *world, Text *table);

/* ---- the model: model.c */

typedef struct {
    long scripts, events, frames, laps, segments, sessions, moves, bytes;
    struct { char word[24]; long count; } ending[40];
} Sums;
void model_report(const World *world, const Script *script, int is_bare, Text *report, Sums *sums);
/* How many laps the last script had. */
long model_laps(void);

/* The rule of the model that is made wrong, from 1; 0 is none. */
extern int wrong_rule;
#define WRONG(rule) (wrong_rule == (rule))
#endif
