/* What a script comes to: the report by docs/FORMATS.md, and by the reads that the pages of the theorem define.
   It shares nothing with the program. Each rule that WRONG names can be made wrong, to try the scripts. */
#include <stdio.h>
#include <stdlib.h>
#include <string.h>

#include "scripts.h"

int wrong_rule;

enum { WAITS, IS_SOURCE, IS_ROVER, IS_OVER };

typedef struct { size_t from, size; int number; } Frame;
typedef struct { Frame *frames; int published, room, claims, holder, claim; } Station;
typedef struct { int from, to, published, overrun; } Lap;
typedef struct { int mount, from, to, sent, overrun, first_lap, laps; } Segment;

/* Where a chunked body stands. */
enum { DIGITS, EXTENSION, SIZE_LF, DATA, DATA_CR, DATA_LF, LINE_START, TRAILER, TRAILER_LF, LAST_LF, ENDED, BROKEN };
typedef struct { int phase, digits, line, trailers; long size, taken; } Chunks;

typedef struct {
    int number, opening, state, version, relay, mount, is_chunked, claim;
    int account, group, is_near, bases, base[MOUNTS], present, segments, laps, is_long_line;
    long junk;
    Text head, waiting, line, sent;
    Chunks chunks;
    Segment segment[EVENTS];
    Lap lap[EVENTS];
    char ending[48];
} Link;

/* The run of one script. */
static struct {
    const World *world;
    Station station[MOUNTS];
    Text pool, table;
    Link link[LINKS];
    int links, busy[USERS + 1], sessions[USERS + 1];
    long sent[USERS + 1], overrun[USERS + 1];
} run;

static int is_permitted_by(const Types *types, int number)
{
    if (types->is_all)
        return 1;
    for (int at = 0; at < types->count; at++)
        if (types->number[at] == number)
            return 1;
    return 0;
}

/* Whether a group may hear a frame of this number at this mountpoint; -1 is a frame without one. */
static int may_hear(int group, int mount, int number)
{
    const Group *one = &run.world->group[group];
    for (int at = 0; at < one->filters && !WRONG(1); at++)
        if (one->filter_mount[at] == mount)
            return is_permitted_by(&one->filter[at], number);
    return is_permitted_by(&one->types, number) || (WRONG(2) && number < 0);
}

static void end(Link *link, const char *ending)
{
    link->state = IS_OVER;
    snprintf(link->ending, sizeof link->ending, "%s", ending);
}

static void end_with(Link *link, const char *form, int first, int second)
{
    link->state = IS_OVER;
    snprintf(link->ending, sizeof link->ending, form, first, second);
}

/* ---- what is given back */

static void release(Link *link)
{
    Station *station = &run.station[link->mount];
    if (!WRONG(3))
        station->holder = 0;
}

static void leave(Link *link)
{
    run.busy[link->account] -= !WRONG(4);
    run.sessions[link->account]++;
    for (int at = 0; at < link->segments; at++) {
        run.sent[link->account] += link->segment[at].sent;
        run.overrun[link->account] += link->segment[at].overrun;
    }
}

/* It is closed from outside: by its end, or by a read that failed. */
static void close_link(Link *link, int is_break)
{
    int was = link->state;
    if (was == IS_OVER)
        return;
    if (was == IS_SOURCE) {
        release(link);
        end_with(link, is_break ? "read-fault" : "source-end %d", link->claim, 0);
    } else if (was == IS_ROVER) {
        leave(link);
        end(link, is_break ? "read-fault" : "rover-end");
    } else {
        end(link, is_break && !WRONG(5) ? "read-fault" : "no-head");
    }
}

/* ---- replies */

static void closed_reply(Link *link, const char *status, int version)
{
    const char *own = version == 2 ? "Ntrip-Version: Ntrip/2.0\r\n" : "";
    const char *realm = strncmp(status, "401", 3) ? "" : "WWW-Authenticate: Basic realm=\"caster\"\r\n";
    say(&link->sent, "HTTP/1.%d %s\r\n%sServer: NTRIP lapcast/1.0\r\n%sContent-Length: 0\r\nConnection: close\r\n\r\n",
        version != 1, status, own, realm);
}

static void table_reply(Link *link, int version)
{
    run.table.size = 0;
    table_text(run.world, &run.table);
    if (version == 2)
        say(&link->sent, "HTTP/1.1 200 OK\r\nNtrip-Version: Ntrip/2.0\r\nServer: NTRIP lapcast/1.0\r\n"
            "Content-Type: gnss/sourcetable\r\n");
    else
        say(&link->sent, "SOURCETABLE 200 OK\r\nServer: NTRIP lapcast/1.0\r\nContent-Type: text/plain\r\n");
    say(&link->sent, "Content-Length: %zu\r\nConnection: close\r\n\r\n", run.table.size);
    put(&link->sent, run.table.at, run.table.size);
}

/* An answer that ends a request of these versions; none has version 0. */
static void refuse(Link *link, const char *first, const char *second)
{
    if (link->version == 1 && !strncmp(first, "ERROR", 5))
        say(&link->sent, "%s\r\n", first);
    else if (link->version == 1)
        closed_reply(link, first, 1);
    else if (link->version == 2)
        closed_reply(link, second, 2);
}

static void welcome(Link *link, int is_rover)
{
    if (link->version == 1)
        say(&link->sent, "ICY 200 OK\r\n\r\n");
    else if (link->version == 2)
        say(&link->sent, "HTTP/1.1 200 OK\r\nNtrip-Version: Ntrip/2.0\r\nServer: NTRIP lapcast/1.0\r\n%s"
            "Connection: close\r\n\r\n",
            is_rover ? "Content-Type: gnss/data\r\nTransfer-Encoding: chunked\r\n" : "");
}

/* ---- sources */

static void publish(Station *station, const unsigned char *bytes, size_t size)
{
    if (station->published == station->room) {
        station->room = station->room * 2 + 64;
        station->frames = realloc(station->frames, station->room * sizeof(Frame));
        if (!station->frames)
            abort();
    }
    int number = size >= 8 ? bytes[3] << 4 | bytes[4] >> 4 : -1;
    station->frames[station->published++] = (Frame){run.pool.size, size, number};
    put(&run.pool, bytes, size);
}

/* Cuts all that is whole off what waits. */
static void cut(Link *link)
{
    const unsigned char *bytes = link->waiting.at;
    size_t at = 0, size = link->waiting.size;
    while (at < size) {
        size_t left = size - at, whole = 0;
        if (bytes[at] == 0xD3) {
            if (left < 3)
                break;
            whole = 6 + ((bytes[at + 1] & (WRONG(6) ? 7 : 3)) << 8 | bytes[at + 2]);
            if (left < whole)
                break;
            uint32_t sum = bytes[at + whole - 3] << 16 | bytes[at + whole - 2] << 8 | bytes[at + whole - 1];
            if (checksum(bytes + at, whole - 3) != sum)
                whole = 0;
        }
        if (whole)
            publish(&run.station[link->mount], bytes + at, whole);
        else
            link->junk++;
        at += whole ? whole : 1;
    }
    memmove(link->waiting.at, link->waiting.at + at, size - at);
    link->waiting.size = size - at;
}

static int digit_value(int byte)
{
    if (byte >= '0' && byte <= '9')
        return byte - '0';
    byte |= 32;
    return byte >= 'a' && byte <= 'f' ? byte - 'a' + 10 : -1;
}

static int in_size_line(Chunks *chunks, int byte)
{
    int value = digit_value(byte);
    chunks->line++;
    if (chunks->phase == DIGITS && value >= 0 && chunks->digits < 6) {
        chunks->digits++;
        chunks->size = chunks->size * 16 + value;
        return DIGITS;
    }
    if (byte == '\r' && chunks->digits)
        return SIZE_LF;
    if (byte == '\n' || byte == '\r' || !chunks->digits || (chunks->phase == DIGITS && byte != ';'))
        return BROKEN;
    /* CR LF must still have room. */
    return chunks->line + 2 <= 256 ? EXTENSION : BROKEN;
}

static int in_trailers(Chunks *chunks, int byte)
{
    chunks->trailers++;
    if (byte == '\r')
        return chunks->phase == LINE_START ? LAST_LF : TRAILER_LF;
    /* The end of this line and the empty one must still have room. */
    return byte != '\n' && chunks->trailers + 4 <= 1024 ? TRAILER : BROKEN;
}

static int behind_size(Chunks *chunks)
{
    chunks->digits = chunks->line = 0;
    return chunks->size ? DATA : LINE_START;
}

static int step(Chunks *chunks, int byte)
{
    switch (chunks->phase) {
    case DIGITS:
    case EXTENSION: return in_size_line(chunks, byte);
    case SIZE_LF: return byte == '\n' ? behind_size(chunks) : BROKEN;
    case DATA: return --chunks->size ? DATA : DATA_CR;
    case DATA_CR: return byte == '\r' ? DATA_LF : BROKEN;
    case DATA_LF: return byte == '\n' ? DIGITS : BROKEN;
    case TRAILER_LF: chunks->trailers++; return byte == '\n' ? LINE_START : BROKEN;
    case LAST_LF: return byte == '\n' ? ENDED : BROKEN;
    default: return in_trailers(chunks, byte);
    }
}

static void body(Link *link, const unsigned char *bytes, size_t size)
{
    Chunks *chunks = &link->chunks;
    if (!link->is_chunked)
        put(&link->waiting, bytes, size);
    for (size_t at = 0; link->is_chunked && at < size && chunks->phase < ENDED; at++) {
        if (chunks->phase == DATA)
            put_byte(&link->waiting, bytes[at]);
        chunks->phase = step(chunks, bytes[at]);
        chunks->taken += chunks->phase != BROKEN;
    }
    cut(link);
    if (chunks->phase < ENDED)
        return;
    release(link);
    if (chunks->phase == ENDED)
        end_with(link, "source-end %d", link->claim, 0);
    else
        end_with(link, "bad-chunk %d", chunks->taken + WRONG(7), 0);
}

static void claim(Link *link, int mount)
{
    Station *station = &run.station[mount];
    if (station->holder && !WRONG(8)) {
        end_with(link, "taken %d %d", station->holder, station->claim);
        return refuse(link, "ERROR - Mount Point Taken or Invalid", "409 Conflict");
    }
    station->holder = link->number;
    station->claim = link->claim = ++station->claims;
    link->mount = mount;
    link->state = IS_SOURCE;
    welcome(link, 0);
}

static int mount_of(const char *name)
{
    for (int at = 0; at < run.world->mounts; at++)
        if (!strcmp(run.world->mount[at].name, name))
            return at;
    return -1;
}

static void ask_as_source(Link *link, const Request *request)
{
    int mount = mount_of(request->name);
    link->version = request->version;
    link->is_chunked = request->is_chunked;
    if (mount < 0) {
        end(link, "no-mount");
        refuse(link, "ERROR - Mount Point Taken or Invalid", "404 Not Found");
    } else if (strcmp(run.world->mount[mount].password, request->password) && !WRONG(9)) {
        end(link, "source-password");
        refuse(link, "ERROR - Bad Password", "401 Unauthorized");
    } else {
        claim(link, mount);
    }
}

/* ---- rovers */

static void join(Link *link, int mount)
{
    int at = run.station[mount].published;
    if (WRONG(10) && at > run.world->mount[mount].ring)
        at -= run.world->mount[mount].ring;
    link->segment[link->segments++] = (Segment){mount, at, at, 0, 0, link->laps, 0};
    link->present = mount;
}

/* The square of a distance: degrees of latitude, and of longitude the short way round by the cosine at the
   position's whole degrees, by the approximation of Bhaskara. */
static unsigned __int128 measure(Position rover, Position base)
{
    long whole = labs(rover.lat) / 10000000, cosine = 10000 * (32400 - 4 * whole * whole) / (32400 + whole * whole);
    long turn = labs(rover.lon - base.lon), north = labs(rover.lat - base.lat);
    if (turn > 3600000000 - turn && !WRONG(11))
        turn = 3600000000 - turn;
    unsigned __int128 east = WRONG(12) ? turn : (__int128)turn * cosine / 10000;
    return (unsigned __int128)north * north + east * east;
}

/* Chooses among the bases that are held: the nearest, but the present one where that is not beaten. */
static void report_position(Link *link, Position at)
{
    int nearest = -1, is_present_held = 0;
    unsigned __int128 least = 0, present = 0;
    long share = 100 - run.world->hysteresis * !WRONG(13);
    for (int k = 0; k < link->bases; k++) {
        if (!run.station[link->base[k]].holder)
            continue;
        unsigned __int128 one = measure(at, run.world->mount[link->base[k]].at);
        if (nearest < 0 || one < least || (WRONG(14) && one == least)) {
            nearest = link->base[k];
            least = one;
        }
        if (link->base[k] == link->present) {
            is_present_held = 1;
            present = one;
        }
    }
    if (nearest < 0 || nearest == link->present)
        return;
    if (!is_present_held || least * 10000 < present * share * share)
        join(link, nearest);
}

static void listen(Link *link, const unsigned char *bytes, size_t size)
{
    for (size_t at = 0; link->is_near && at < size; at++) {
        if (bytes[at] != '\n') {
            put_byte(&link->line, bytes[at]);
            continue;
        }
        Position where;
        size_t long_line = link->line.size;
        if (long_line && link->line.at[long_line - 1] == '\r')
            long_line--;
        if (read_report(link->line.at, long_line, &where))
            report_position(link, where);
        link->line.size = 0;
    }
}

/* One turn: a read of the newest segment. */
static void turn(Link *link, int budget)
{
    if (link->state != IS_ROVER || !link->segments)
        return;
    Segment *segment = &link->segment[link->segments - 1];
    Station *station = &run.station[segment->mount];
    int oldest = station->published - run.world->mount[segment->mount].ring;
    if (segment->to < oldest) {
        Lap lap = {segment->to, oldest, station->published + WRONG(15), 0};
        for (int at = lap.from; at < lap.to; at++)
            lap.overrun += may_hear(link->group, segment->mount, station->frames[at].number) || WRONG(16);
        segment->overrun += lap.overrun;
        segment->laps++;
        segment->to = oldest;
        link->lap[link->laps++] = lap;
    }
    while (budget > 0 && segment->to < station->published) {
        Frame *frame = &station->frames[segment->to++];
        if (!may_hear(link->group, segment->mount, frame->number)) {
            budget -= WRONG(17);
            continue;
        }
        budget--;
        segment->sent++;
        if (link->version == 2)
            say(&link->sent, WRONG(18) ? "%zX\r\n" : "%zx\r\n", frame->size);
        put(&link->sent, run.pool.at + frame->from, frame->size);
        if (link->version == 2)
            say(&link->sent, "\r\n");
    }
}

static int lists(int group, int heard)
{
    for (int at = 0; at < run.world->group[group].count; at++)
        if (run.world->group[group].heard[at] == heard)
            return 1;
    return 0;
}

/* The number of what a rover asks for: a mountpoint, or a near one behind all of them; -1 where there is none. */
static int heard_of(const char *name)
{
    for (int at = 0; at < run.world->nears; at++)
        if (!strcmp(run.world->near[at].name, name))
            return run.world->mounts + at;
    return mount_of(name);
}

/* Who it is: its account and group, or how it ends. */
static int is_known(Link *link, const Request *request)
{
    const World *world = run.world;
    link->account = -1;
    if (request->auth == NOT_GIVEN && world->has_anonymous) {
        link->account = 0;
        link->group = world->anonymous_group;
        return 1;
    }
    for (int at = 0; at < world->accounts && request->auth == BASIC; at++)
        if (!strcmp(world->account[at].user, request->user)) {
            link->account = at + 1;
            link->group = world->account[at].group;
        }
    if (link->account < 0)
        end(link, "no-account");
    else if (strcmp(world->account[link->account - 1].password, request->password) && !WRONG(19))
        end_with(link, "password %d", link->account, 0);
    return link->state != IS_OVER;
}

static void find_bases(Link *link, int heard)
{
    const World *world = run.world;
    link->bases = 0;
    link->is_near = heard >= world->mounts;
    if (!lists(link->group, heard) && !WRONG(20))
        return;
    if (!link->is_near)
        link->base[link->bases++] = heard;
    for (int at = 0; link->is_near && at < world->near[heard - world->mounts].count; at++) {
        int base = world->near[heard - world->mounts].base[at];
        if (lists(link->group, base) || WRONG(21))
            link->base[link->bases++] = base;
    }
}

static void enter(Link *link, int heard, const Request *request)
{
    int cap = link->account ? run.world->account[link->account - 1].cap : run.world->anonymous_cap;
    if (run.busy[link->account] >= cap + WRONG(22)) {
        end_with(link, "full %d %d", run.busy[link->account], cap);
        return refuse(link, "503 Service Unavailable", "503 Service Unavailable");
    }
    run.busy[link->account]++;
    link->state = IS_ROVER;
    link->present = -1;
    welcome(link, 1);
    if (!link->is_near)
        join(link, heard);
    else if (request->has_position && !WRONG(23))
        report_position(link, request->at);
}

static void ask_as_rover(Link *link, const Request *request)
{
    int heard = heard_of(request->name);
    link->version = request->version;
    if (heard < 0) {
        end(link, "no-mount");
        if (link->version == 1)
            table_reply(link, 1);
        else
            refuse(link, "", "404 Not Found");
    } else if (!is_known(link, request)) {
        refuse(link, "401 Unauthorized", "401 Unauthorized");
    } else {
        find_bases(link, heard);
        if (link->bases)
            return enter(link, heard, request);
        end_with(link, "denied %d", link->group + WRONG(24), 0);
        refuse(link, "403 Forbidden", "403 Forbidden");
    }
}

/* ---- what comes in */

static void bad_head(Link *link, const char *ending, const char *status)
{
    end(link, ending);
    closed_reply(link, status, 0);
}

static void feed(Link *link, const unsigned char *bytes, size_t size)
{
    if (link->state == IS_SOURCE)
        body(link, bytes, size);
    else if (link->state == IS_ROVER)
        listen(link, bytes, size);
}

static void take_head(Link *link)
{
    Request request;
    size_t size = head_size(link->head.at, link->head.size);
    if (!size && link->head.size >= 8192)
        return bad_head(link, "long-head", "400 Bad Request");
    if (!size)
        return;
    read_request(link->head.at, size, &request);
    if (request.kind == BAD_HEAD)
        bad_head(link, "bad-head", "400 Bad Request");
    else if (request.kind == NO_METHOD)
        bad_head(link, "method", "501 Not Implemented");
    else if (request.kind == NO_CODING)
        bad_head(link, "coding", "501 Not Implemented");
    else if (request.kind == ASKS_TABLE) {
        end(link, "table-sent");
        table_reply(link, request.version);
    } else if (request.kind == ASKS_SOURCE)
        ask_as_source(link, &request);
    else
        ask_as_rover(link, &request);
    feed(link, link->head.at + size, link->head.size - size);
}

static void take_answer(Link *link)
{
    static const char *endings[] = {"", "", "", "bad-head", "long-head", "coding", "upstream-table", "upstream %d"};
    size_t size = 0;
    int status = 0, said = read_answer(link->head.at, link->head.size, &size, &status);
    if (said == GOES_ON)
        return;
    if (said != ACCEPTED && said != ACCEPTED_CHUNKED)
        return end_with(link, endings[said], status, 0);
    link->is_chunked = said == ACCEPTED_CHUNKED;
    claim(link, run.world->relay[link->relay].mount);
    feed(link, link->head.at + size, link->head.size - size);
}

static void come_in(Link *link, const unsigned char *bytes, size_t size)
{
    if (link->state != WAITS)
        return feed(link, bytes, size);
    put(&link->head, bytes, size);
    if (link->opening == RELAY)
        take_answer(link);
    else
        take_head(link);
}

/* ---- how it opens */

static void ask_upstream(Link *link)
{
    const Relay *relay = &run.world->relay[link->relay];
    char both[2 * NAME + 2];
    say(&link->sent, relay->protocol == 1 ? "GET /%s HTTP/1.0\r\n" : "GET /%s HTTP/1.1\r\n", relay->upstream);
    if (relay->protocol == 2)
        say(&link->sent, "Host: %s\r\nNtrip-Version: Ntrip/2.0\r\n", relay->address);
    say(&link->sent, "User-Agent: NTRIP lapcast/1.0\r\n");
    if (relay->has_user) {
        snprintf(both, sizeof both, "%s:%s", relay->user, relay->password);
        say(&link->sent, "Authorization: Basic ");
        put_base64(&link->sent, both);
        say(&link->sent, "\r\n");
    }
    say(&link->sent, relay->protocol == 2 ? "Connection: close\r\n\r\n" : "\r\n");
}

static void open_link(const Event *event)
{
    Link *link = &run.link[run.links++];
    Text texts[4] = {link->head, link->waiting, link->line, link->sent};
    memset(link, 0, offsetof(Link, segment));
    link->head = texts[0];
    link->waiting = texts[1];
    link->line = texts[2];
    link->sent = texts[3];
    link->head.size = link->waiting.size = link->line.size = link->sent.size = 0;
    link->number = event->number;
    link->opening = event->kind;
    link->relay = event->value;
    link->present = -1;
    link->ending[0] = 0;
    Request request = {.kind = event->kind == SOURCE ? ASKS_SOURCE : ASKS_ROVER};
    strcpy(request.name, event->name);
    int mount = mount_of(event->name);
    if (event->kind == RELAY)
        ask_upstream(link);
    else if (event->kind == ROVER)
        ask_as_rover(link, &request);
    else if (event->kind == SOURCE && mount >= 0)
        claim(link, mount);
    else if (event->kind == SOURCE)
        end(link, "no-mount");
}

static Link *link_of(int number)
{
    for (int at = 0; at < run.links; at++)
        if (run.link[at].number == number)
            return &run.link[at];
    abort();
}

static void play(const Event *event, const Text *bytes)
{
    if (event->kind <= RELAY)
        return open_link(event);
    Link *link = link_of(event->number);
    if (event->kind == IN)
        come_in(link, bytes->at + event->from, event->size);
    else if (event->kind == TURN)
        turn(link, event->value);
    else
        close_link(link, event->kind == BREAK);
}

/* ---- the report */

static void link_lines(const Link *link, Text *report)
{
    say(report, "connection %d %s\njunk %ld\n", link->number, link->ending, link->junk + (WRONG(25) && link->junk));
    for (int at = 0; at < link->segments; at++) {
        const Segment *one = &link->segment[at];
        say(report, "segment %s %d %d %d %d\n", run.world->mount[one->mount].name, one->from, one->to, one->sent,
            one->overrun);
        for (int k = one->first_lap; k < one->first_lap + one->laps; k++)
            say(report, "lap %d %d %d %d\n", link->lap[k].from, link->lap[k].to, link->lap[k].published,
                link->lap[k].overrun);
    }
    say(report, "bytes ");
    put_hex(report, link->sent.at, link->sent.size);
    say(report, link->sent.size ? "\n" : "-\n");
}

static void closing_lines(int is_bare, Text *report)
{
    long sessions = 0, sent = 0, overrun = 0;
    for (int at = 0; at < run.world->mounts; at++)
        say(report, "mount %s %d %d\n", run.world->mount[at].name, run.station[at].published, run.station[at].claims);
    for (int at = 0; at <= run.world->accounts; at++) {
        sessions += run.sessions[at];
        sent += run.sent[at];
        overrun += run.overrun[at];
        if (at && !is_bare)
            say(report, "account %s %d %ld %ld\n", run.world->account[at - 1].user, run.sessions[at], run.sent[at],
                run.overrun[at]);
    }
    say(report, "total %ld %ld %ld\n", sessions - (WRONG(26) && run.sessions[0]), sent, overrun);
}

static void count_ending(const char *ending, Sums *sums)
{
    size_t size = strcspn(ending, " ");
    for (int at = 0; at < 40; at++) {
        if (!sums->ending[at].word[0])
            memcpy(sums->ending[at].word, ending, size);
        if (strlen(sums->ending[at].word) == size && !memcmp(sums->ending[at].word, ending, size)) {
            sums->ending[at].count++;
            return;
        }
    }
}

static void count(const Script *script, Sums *sums)
{
    sums->scripts++;
    sums->events += script->count;
    for (int at = 0; at < run.links; at++) {
        sums->laps += run.link[at].laps;
        sums->segments += run.link[at].segments;
        sums->moves += run.link[at].segments > 1 ? run.link[at].segments - 1 : 0;
        sums->bytes += run.link[at].sent.size;
        count_ending(run.link[at].ending, sums);
    }
    for (int at = 0; at < run.world->mounts; at++)
        sums->frames += run.station[at].published;
    for (int at = 0; at <= run.world->accounts; at++)
        sums->sessions += run.sessions[at];
}

static int by_number(const void *one, const void *other)
{
    const Link *const *first = one, *const *second = other;
    return (*first)->number - (*second)->number;
}

void model_report(const World *world, const Script *script, int is_bare, Text *report, Sums *sums)
{
    Link *sorted[LINKS];
    run.world = world;
    run.links = 0;
    run.pool.size = report->size = 0;
    for (int at = 0; at < MOUNTS; at++)
        run.station[at].published = run.station[at].claims = run.station[at].holder = 0;
    memset(run.busy, 0, sizeof run.busy);
    memset(run.sessions, 0, sizeof run.sessions);
    memset(run.sent, 0, sizeof run.sent);
    memset(run.overrun, 0, sizeof run.overrun);
    for (int at = 0; at < script->count; at++)
        play(&script->event[at], &script->bytes);
    for (int at = 0; at < run.links; at++)
        sorted[at] = &run.link[at];
    qsort(sorted, run.links, sizeof *sorted, by_number);
    for (int at = 0; at < run.links; at++)
        close_link(sorted[at], 0);
    for (int at = 0; at < run.links; at++)
        link_lines(sorted[at], report);
    closing_lines(is_bare, report);
    count(script, sums);
}

long model_laps(void)
{
    long laps = 0;
    for (int at = 0; at < run.links; at++)
        laps += run.link[at].laps;
    return laps;
}
