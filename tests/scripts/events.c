/* Scripts that are drawn. Each connection has bytes that it is still to send: a head, frames, junk, chunks, reports.
   Each step is a piece of them, a turn, or the end of a connection. */
#include <stdio.h>
#include <string.h>

#include "scripts.h"

/* A connection while its script is drawn. */
typedef struct {
    int number, opening, is_source, is_chunked, is_near, is_closed;
    Text todo;
    size_t at;
} Plan;

static Plan plans[LINKS];

/* ---- bodies */

static void put_frame(Dice *dice, Text *text)
{
    static const int sizes[] = {0, 1, 2, 2, 3, 4, 7, 12, 40}, numbers[] = {1005, 1077, 4095, 0, 1, 1230};
    unsigned char one[1029];
    int size = chance(dice, 1) ? 1023 : sizes[below(dice, 9)], number = numbers[below(dice, 6)];
    one[0] = 0xD3;
    one[1] = (chance(dice, 5) ? below(dice, 64) << 2 : 0) | size >> 8;
    one[2] = size;
    for (int at = 0; at < size; at++)
        one[3 + at] = draw(dice);
    if (size >= 2) {
        one[3] = number >> 4;
        one[4] = number << 4 | (one[4] & 15);
    }
    uint32_t sum = checksum(one, size + 3);
    for (int at = 0; at < 3; at++)
        one[size + 3 + at] = sum >> (16 - 8 * at);
    put(text, one, size + 6);
}

static void put_junk(Dice *dice, Text *text)
{
    static const char *some[] = {"no frame", "\xd3", "\xd3\x03", "\r\n", "\xd3\xd3\xd3\xd3"};
    size_t from = text->size;
    switch (below(dice, 4)) {
    case 0:
        say(text, "%s", some[below(dice, 5)]);
        break;
    case 1:
        /* A frame with another last byte, or another one. */
        put_frame(dice, text);
        text->at[text->size - 1 - (chance(dice, 50) ? below(dice, text->size - from) : 0)] ^= 1 << below(dice, 8);
        break;
    case 2:
        put_frame(dice, text);
        text->size = from + below(dice, text->size - from);
        break;
    default:
        for (int left = 1 + below(dice, 6); left > 0; left--)
            put_byte(text, draw(dice));
    }
}

static void put_stream(Dice *dice, Text *text)
{
    for (int left = 1 + below(dice, 4); left > 0; left--)
        if (chance(dice, 85))
            put_frame(dice, text);
        else
            put_junk(dice, text);
}

static void put_extension(Dice *dice, Text *text)
{
    static const int sizes[] = {0, 1, 5, 240, 252, 253, 254, 255};
    put_byte(text, ';');
    for (int left = sizes[below(dice, 8)]; left > 0; left--)
        put_byte(text, 'x');
}

static void put_trailers(Dice *dice, Text *text)
{
    static const int sizes[] = {1, 5, 1015, 1020, 1021, 1022};
    for (int lines = below(dice, 3); lines > 0; lines--) {
        for (int left = sizes[below(dice, chance(dice, 20) ? 6 : 2)]; left > 0; left--)
            put_byte(text, 't');
        say(text, "\r\n");
    }
    say(text, "\r\n");
}

/* A chunk with some frames, or with what is none; now and then the last one, or what breaks the coding. */
static void put_chunk(Dice *dice, Text *text)
{
    static const char *forms[] = {"%zx", "%zX", "%04zx", "%06zX"};
    static const char *faults[] = {
        "-1\r\n", "\r\n", "g\r\n", "5 \r\n", "0000005\r\n", "5\n", ";a\r\n", "2;a\rb", "1\r\nab\r\n", "0\r\nA\n",
        "5;\n"};
    static Text data;
    data.size = 0;
    put_stream(dice, &data);
    for (size_t at = 0; at < data.size;) {
        size_t size = chance(dice, 60) ? data.size - at : 1 + below(dice, data.size - at);
        say(text, forms[below(dice, 4)], size);
        if (chance(dice, 5))
            put_extension(dice, text);
        say(text, "\r\n");
        put(text, data.at + at, size);
        say(text, "\r\n");
        at += size;
    }
    if (chance(dice, 4)) {
        say(text, chance(dice, 50) ? "0\r\n" : "00;last\r\n");
        put_trailers(dice, text);
    } else if (chance(dice, 3)) {
        say(text, "%s", faults[below(dice, 11)]);
    }
}

/* ---- heads */

static void put_end(Dice *dice, Text *text)
{
    say(text, chance(dice, 85) ? "\r\n" : "\n");
}

/* A report of a position, or what is nearly one. */
static void put_report(Dice *dice, Text *text)
{
    char line[128];
    int sum = 0, fix = chance(dice, 5) ? 0 : 1 + below(dice, 9);
    long lat = 4800 + 15 * below(dice, 4), lon = 1100 + 15 * below(dice, 4);
    snprintf(line, sizeof line, "GPGGA,1,%04ld.%03d,%c,%05ld.%05d,%c,%d,08,0.9,5,M,4,M,,", lat, below(dice, 1000),
             chance(dice, 95) ? 'N' : 'S', chance(dice, 90) ? lon : 17955, below(dice, 100000),
             chance(dice, 90) ? 'E' : 'W', fix);
    if (chance(dice, 4))
        strcpy(line, chance(dice, 50) ? "GPRMC,1,2,3" : "GPGGA,1,9100.0,N,01130.0,E,1,08,0.9,5,M,4,M,,");
    for (char *one = line; *one; one++)
        sum ^= (unsigned char)*one;
    say(text, "$%s*%02X", line, chance(dice, 96) ? sum : (sum ^ 1));
}

static const char *any_name(Dice *dice, const World *world)
{
    unsigned one = below(dice, 20);
    if (one < 1)
        return "NONE";
    if (one < 8 && world->nears)
        return world->near[below(dice, world->nears)].name;
    return world->mount[below(dice, world->mounts)].name;
}

static const char *password_of(Dice *dice, const World *world, const char *name)
{
    for (int at = 0; at < world->mounts && !chance(dice, 6); at++)
        if (!strcmp(world->mount[at].name, name))
            return world->mount[at].password;
    return chance(dice, 50) ? "pw0" : "none";
}

static void put_credentials(Dice *dice, const World *world, Text *text)
{
    char both[2 * NAME + 2];
    const Account *account = &world->account[below(dice, world->accounts ? world->accounts : 1)];
    if (chance(dice, 4)) {
        static const char *unread[] = {"Digest x", "Basic", "Basic !!!!", "Basic YWI=", "Bearer dXNlcjA6a2V5OzA="};
        say(text, "Authorization: %s", unread[below(dice, 5)]);
    } else {
        snprintf(both, sizeof both, "%s:%s", chance(dice, 95) ? account->user : "nobody",
                 chance(dice, 92) ? account->password : "key;9");
        say(text, chance(dice, 80) ? "Authorization: Basic " : "aUTHORIZATION:\tbAsIc    ");
        put_base64(text, both);
    }
    put_end(dice, text);
}

/* Header lines that say nothing; at most so many that the head is too long by its lines. */
static void put_lines(Dice *dice, Text *text)
{
    for (int left = chance(dice, 2) ? 30 + below(dice, 4) : below(dice, 3); left > 0; left--) {
        say(text, "X-%d: y", left);
        put_end(dice, text);
    }
}

static void put_rover(Dice *dice, const World *world, Plan *plan)
{
    Text *text = &plan->todo;
    plan->is_near = world->is_field && chance(dice, 75);
    const char *name = plan->is_near ? world->near[below(dice, NEARS)].name : any_name(dice, world);
    say(text, "GET /%s HTTP/1.%d", plan->is_near || chance(dice, 95) ? name : "", below(dice, 2));
    put_end(dice, text);
    put_lines(dice, text);
    if (chance(dice, 50)) {
        say(text, chance(dice, 80) ? "Ntrip-Version: Ntrip/2.0" : "ntrip-version:ntrip/2.0\t ");
        put_end(dice, text);
    }
    if (chance(dice, plan->is_near ? 20 : 65) && world->accounts)
        put_credentials(dice, world, text);
    if (chance(dice, 30)) {
        say(text, "Ntrip-GGA: ");
        put_report(dice, text);
        put_end(dice, text);
    }
    put_end(dice, text);
}

static void put_source(Dice *dice, const World *world, Plan *plan, const Mount *mount)
{
    Text *text = &plan->todo;
    const char *name = chance(dice, 95) ? world->mount[below(dice, world->mounts)].name : any_name(dice, world);
    const char *password = password_of(dice, world, name);
    if (mount) {
        name = mount->name;
        password = mount->password;
    }
    char both[2 * NAME + 2];
    if (chance(dice, 40)) {
        say(text, "SOURCE %s %s%s", password, chance(dice, 50) ? "/" : "", name);
        put_end(dice, text);
        put_lines(dice, text);
        put_end(dice, text);
        return;
    }
    say(text, "POST /%s HTTP/1.1\r\n", name);
    snprintf(both, sizeof both, "any:%s", password);
    if (chance(dice, 97)) {
        say(text, "Authorization: Basic ");
        put_base64(text, both);
        put_end(dice, text);
    }
    put_lines(dice, text);
    plan->is_chunked = chance(dice, 50);
    if (plan->is_chunked)
        say(text, chance(dice, 95) ? "Transfer-Encoding: chunked\r\n" : "transfer-encoding: CHUNKED \r\n");
    else if (chance(dice, 5))
        say(text, "Transfer-Encoding: gzip\r\n");
    put_end(dice, text);
}

/* A head that is none, that asks for what is not done, or that does not end. */
static void put_bad_head(Dice *dice, Text *text)
{
    static const char *some[] = {
        "NONSENSE\r\n\r\n", "\r\n", "\n", "PUT /A0 HTTP/1.1\r\n\r\n", "HEAD / HTTP/1.0\r\n\r\n",
        "GET A0 HTTP/1.1\r\n\r\n", "GET /A?0 HTTP/1.1\r\n\r\n", "POST / HTTP/1.1\r\n\r\n", "GET /A/B HTTP/1.0\n\n",
        "GET /A0 HTTP/1.1\r\nno header\r\n\r\n", "GET /", "SOURCE pw0", "GET /A0 HTTP/1.1\r\nHost: x\r\n", "G",
        "DELETE A0 HTTP/1.1\r\n\r\n"};
    if (chance(dice, 4)) {
        int size = 8150 + below(dice, 60);
        say(text, "GET /A0 HTTP/1.0\r\nX: ");
        while ((int)text->size < size)
            put_byte(text, 'y');
        say(text, "\r\n\r\n");
    } else {
        say(text, "%s", some[below(dice, 15)]);
    }
}

/* What another caster answers to a relay. */
static void put_answer(Dice *dice, Plan *plan)
{
    static const char *some[] = {
        "SOURCETABLE 200 OK\r\n", "HTTP/1.1 401 Unauthorized\r\nX: y\r\n\r\n", "HTTP/1.0 404 Not Found\r\n\r\n",
        "HTTP/1.1 200 OK\r\nTransfer-Encoding: gzip\r\n\r\n", "ERROR - no\r\n", "ICY 200 OK", "HTTP/1.1 200 OK\r\n",
        "\r\n", "ICY 401 no\r\n", "HTTP/1.1 503 Busy\r\nTransfer-Encoding: gzip\r\n\r\n"};
    unsigned one = below(dice, 10);
    plan->is_source = 1;
    if (one < 4)
        say(&plan->todo, chance(dice, 70) ? "ICY 200 OK\r\n" : "ICY 200 OK\n");
    else if (one < 6)
        say(&plan->todo, "HTTP/1.1 200 OK\r\nServer: x\r\n\r\n");
    else if (one < 8) {
        plan->is_chunked = 1;
        say(&plan->todo, "HTTP/1.1 200 OK\r\nTransfer-Encoding: %s\r\n\r\n", chance(dice, 90) ? "chunked" : "Chunked");
    } else
        say(&plan->todo, "%s", some[below(dice, 10)]);
}

/* ---- events */

static Event *more(Script *script, int kind, int number)
{
    Event *event = &script->event[script->count++];
    memset(event, 0, sizeof *event);
    event->kind = kind;
    event->number = number;
    return event;
}

static int is_new(int number, int plan_count)
{
    for (int at = 0; at < plan_count; at++)
        if (plans[at].number == number)
            return 0;
    return number > 0;
}

static void open_bare(Dice *dice, Plan *plan, Event *event)
{
    plan->is_source = event->kind == SOURCE;
    strcpy(event->name, chance(dice, 97) ? "A" : "B");
}

static void open_one(Dice *dice, const World *world, int is_bare, int count, Script *script)
{
    Plan *plan = &plans[count];
    Text todo = plan->todo;
    memset(plan, 0, sizeof *plan);
    plan->todo = todo;
    plan->todo.size = 0;
    while (!is_new(plan->number, count))
        plan->number = chance(dice, 90) ? 1 + below(dice, 40) : 1 + below(dice, 9999);
    int kind = is_bare ? (chance(dice, 40) ? SOURCE : ROVER) : world->relays && chance(dice, 15) ? RELAY : OPEN;
    Event *event = more(script, plan->opening = kind, plan->number);
    if (is_bare)
        return open_bare(dice, plan, event);
    if (kind == RELAY) {
        event->value = below(dice, world->relays);
        return put_answer(dice, plan);
    }
    unsigned one = below(dice, 100);
    int is_of_field = world->is_field && count < world->mounts;
    if (one < 8 && !is_of_field)
        return put_bad_head(dice, &plan->todo);
    plan->is_source = is_of_field || one < (world->is_field ? 15 : 48);
    if (plan->is_source)
        put_source(dice, world, plan, is_of_field ? &world->mount[count] : NULL);
    else
        put_rover(dice, world, plan);
}

static void come_more(Dice *dice, Plan *plan)
{
    if (plan->is_source && plan->is_chunked)
        put_chunk(dice, &plan->todo);
    else if (plan->is_source)
        put_stream(dice, &plan->todo);
    else {
        for (int left = 1 + below(dice, 3); left > 0; left--) {
            put_report(dice, &plan->todo);
            say(&plan->todo, chance(dice, 3) ? "%0200d\r\n" : "\r\n", 1);
        }
    }
}

static void send_piece(Dice *dice, Plan *plan, Script *script)
{
    if (plan->at == plan->todo.size)
        come_more(dice, plan);
    size_t left = plan->todo.size - plan->at, size = left < 4096 ? left : 4096;
    if (!size)
        return;
    if (chance(dice, 30))
        size = 1 + below(dice, size);
    Event *event = more(script, IN, plan->number);
    event->from = script->bytes.size;
    event->size = size;
    put(&script->bytes, plan->todo.at + plan->at, size);
    plan->at += size;
}

static void act(Dice *dice, Plan *plan, Script *script)
{
    unsigned one = below(dice, 100);
    if (plan->is_closed)
        return;
    if (one < 3) {
        plan->is_closed = 1;
        more(script, chance(dice, 50) ? BREAK : END, plan->number);
    } else if (one < (plan->is_source ? 5u : plan->at < plan->todo.size ? 10u : plan->is_near ? 55u : 85u)) {
        more(script, TURN, plan->number)->value = 1 + below(dice, chance(dice, 50) ? 3 : 16);
    } else {
        send_piece(dice, plan, script);
    }
}

void draw_script(Dice *dice, const World *world, int is_bare, Script *script)
{
    int wanted = 5 + below(dice, chance(dice, 80) ? 50 : 200), count = 0, most = 2 + below(dice, LINKS - 2);
    script->count = 0;
    script->bytes.size = 0;
    while (script->count < wanted) {
        if (count < most && (!count || chance(dice, count < 3 ? 40 : 12)))
            open_one(dice, world, is_bare, count++, script);
        else
            act(dice, &plans[below(dice, count)], script);
        if (!chance(dice, 99))
            wanted--;
    }
}
