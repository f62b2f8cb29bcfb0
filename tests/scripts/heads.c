/* Heads of clients, answers of other casters, reports of positions and the sourcetable, by docs/FORMATS.md alone.
   It reads the heads that draw.c makes, which are clearly right or clearly wrong. */
#include <ctype.h>
#include <stdio.h>
#include <stdlib.h>
#include <string.h>
#include <strings.h>

#include "scripts.h"

enum { LONGEST_HEAD = 8192, MOST_LINES = 32 };

/* A piece of the bytes of a head. */
typedef struct { const unsigned char *at; size_t size; } Piece;

/* The next line, without its end, and where the one behind it begins; 0 where no line is whole. */
static int next_line(const unsigned char *bytes, size_t size, size_t *at, Piece *line)
{
    const unsigned char *end = *at < size ? memchr(bytes + *at, '\n', size - *at) : NULL;
    if (!end)
        return 0;
    *line = (Piece){bytes + *at, end - (bytes + *at)};
    *at += line->size + 1;
    if (line->size && line->at[line->size - 1] == '\r')
        line->size--;
    return 1;
}

size_t head_size(const unsigned char *bytes, size_t size)
{
    size_t at = 0;
    Piece line;
    while (next_line(bytes, size < LONGEST_HEAD ? size : LONGEST_HEAD, &at, &line))
        if (!line.size)
            return at;
    return 0;
}

static int is_text(Piece piece, const char *text)
{
    return piece.size == strlen(text) && !memcmp(piece.at, text, piece.size);
}

static int is_text_of_any_case(Piece piece, const char *text)
{
    return piece.size == strlen(text) && !strncasecmp((const char *)piece.at, text, piece.size);
}

static int begins_with(Piece piece, const char *text)
{
    return piece.size >= strlen(text) && !memcmp(piece.at, text, strlen(text));
}

/* What stands before the first space, which goes; all of it where there is none. */
static Piece next_word(Piece *rest)
{
    const unsigned char *space = rest->size ? memchr(rest->at, ' ', rest->size) : NULL;
    Piece word = {rest->at, space ? (size_t)(space - rest->at) : rest->size};
    size_t gone = word.size + (space != NULL);
    *rest = (Piece){rest->at + gone, rest->size - gone};
    return word;
}

static int take_name(Piece piece, char name[128])
{
    if (piece.size < 1 || piece.size > 100)
        return 0;
    for (size_t at = 0; at < piece.size; at++)
        if (piece.at[at] < 0x21 || piece.at[at] > 0x7e || strchr(";/?:", piece.at[at]))
            return 0;
    memcpy(name, piece.at, piece.size);
    name[piece.size] = 0;
    return 1;
}

static void take_text(Piece piece, char text[128])
{
    size_t size = piece.size < 127 ? piece.size : 127;
    memcpy(text, piece.at, size);
    text[size] = 0;
}

/* ---- header lines */

static Piece trimmed(Piece value)
{
    while (value.size && (*value.at == ' ' || *value.at == '\t'))
        value = (Piece){value.at + 1, value.size - 1};
    while (value.size && (value.at[value.size - 1] == ' ' || value.at[value.size - 1] == '\t'))
        value.size--;
    return value;
}

/* A header line of HTTP (RFC 9112, section 5): a token, a colon, and a value without control characters but tabs. */
static int is_header(Piece line)
{
    const unsigned char *colon = memchr(line.at, ':', line.size);
    if (!colon || colon == line.at)
        return 0;
    for (const unsigned char *at = line.at; at < colon; at++)
        if (*at < 0x21 || *at > 0x7e || !(isalnum(*at) || strchr("!#$%&'*+-.^_`|~", *at)))
            return 0;
    for (const unsigned char *at = colon + 1; at < line.at + line.size; at++)
        if ((*at < 0x20 && *at != '\t') || *at == 0x7f)
            return 0;
    return 1;
}

/* Whether all lines from this place to the empty one are header lines, and not too many. */
static int are_headers(const unsigned char *head, size_t size, size_t at)
{
    Piece line;
    for (int count = 0; next_line(head, size, &at, &line) && line.size; count++)
        if (count == MOST_LINES || !is_header(line))
            return 0;
    return 1;
}

/* Those of a source of NTRIP 1.0 are not looked at, only counted. */
static int are_few_lines(const unsigned char *head, size_t size, size_t at)
{
    Piece line;
    int count = 0;
    while (next_line(head, size, &at, &line) && line.size)
        count++;
    return count <= MOST_LINES;
}

/* The value of the first header of this name. */
static int header(const unsigned char *head, size_t size, const char *name, Piece *value)
{
    size_t at = 0;
    Piece line;
    next_line(head, size, &at, &line);
    while (next_line(head, size, &at, &line) && line.size) {
        size_t front = strlen(name);
        if (line.size > front && line.at[front] == ':' && !strncasecmp((const char *)line.at, name, front)) {
            *value = trimmed((Piece){line.at + front + 1, line.size - front - 1});
            return 1;
        }
    }
    return 0;
}

static int value_of_letter(int letter)
{
    static const char letters[] = "ABCDEFGHIJKLMNOPQRSTUVWXYZabcdefghijklmnopqrstuvwxyz0123456789+/";
    const char *found = letter ? strchr(letters, letter) : NULL;
    return found ? (int)(found - letters) : -1;
}

/* The bytes of a base64 text; -1 where it is none. */
static int decoded(Piece text, char out[128])
{
    int size = 0, pads = 0;
    if (!text.size || text.size % 4 || text.size > 160)
        return -1;
    while (pads < 2 && text.at[text.size - 1 - pads] == '=')
        pads++;
    for (size_t at = 0; at < text.size; at += 4) {
        unsigned value = 0;
        for (int k = 0; k < 4; k++) {
            int is_pad = at + k >= text.size - pads, one = is_pad ? 0 : value_of_letter(text.at[at + k]);
            if (one < 0)
                return -1;
            value = value << 6 | one;
        }
        for (int k = 0; k < 3; k++)
            out[size++] = value >> (16 - 8 * k);
    }
    out[size - pads] = 0;
    return size - pads;
}

static void read_credentials(const unsigned char *head, size_t size, Request *request)
{
    Piece value;
    char text[128];
    if (!header(head, size, "Authorization", &value))
        return;
    request->auth = UNREAD;
    Piece scheme = next_word(&value);
    if (!is_text_of_any_case(scheme, "Basic"))
        return;
    int count = decoded(trimmed(value), text);
    char *colon = count < 0 ? NULL : strchr(text, ':');
    if (!colon)
        return;
    *colon = 0;
    request->auth = BASIC;
    strcpy(request->user, text);
    strcpy(request->password, colon + 1);
}

/* ---- requests */

static void read_source_line(Piece line, Request *request)
{
    next_word(&line);
    take_text(next_word(&line), request->password);
    if (line.size && *line.at == '/')
        line = (Piece){line.at + 1, line.size - 1};
    request->version = 1;
    if (take_name(line, request->name))
        request->kind = ASKS_SOURCE;
}

static void read_post(const unsigned char *head, size_t size, Request *request)
{
    Piece value;
    request->version = 2;
    request->kind = ASKS_SOURCE;
    if (request->auth != BASIC)
        request->password[0] = 0;
    if (header(head, size, "Transfer-Encoding", &value)) {
        request->is_chunked = 1;
        if (!is_text_of_any_case(value, "chunked"))
            request->kind = NO_CODING;
    }
}

static void read_get(const unsigned char *head, size_t size, Request *request)
{
    Piece value;
    request->version = 1;
    if (header(head, size, "Ntrip-Version", &value) && is_text_of_any_case(value, "Ntrip/2.0"))
        request->version = 2;
    if (header(head, size, "Ntrip-GGA", &value))
        request->has_position = read_report(value.at, value.size, &request->at);
}

void read_request(const unsigned char *head, size_t size, Request *request)
{
    size_t at = 0;
    Piece line;
    memset(request, 0, sizeof *request);
    request->kind = BAD_HEAD;
    if (!next_line(head, size, &at, &line) || !line.size)
        return;
    if (begins_with(line, "SOURCE ") && !are_few_lines(head, size, at))
        return;
    if (begins_with(line, "SOURCE "))
        return read_source_line(line, request);
    Piece method = next_word(&line), target = next_word(&line);
    int is_get = is_text(method, "GET"), is_post = is_text(method, "POST");
    if (!(is_text(line, "HTTP/1.0") || is_text(line, "HTTP/1.1")) || !method.size || !are_headers(head, size, at))
        return;
    if (!is_get && !is_post) {
        request->kind = NO_METHOD;
        return;
    }
    if (!target.size || *target.at != '/')
        return;
    Piece name = {target.at + 1, target.size - 1};
    if (name.size ? !take_name(name, request->name) : is_post)
        return;
    read_credentials(head, size, request);
    if (is_post)
        return read_post(head, size, request);
    request->kind = name.size ? ASKS_ROVER : ASKS_TABLE;
    read_get(head, size, request);
}

/* ---- answers of other casters */

static int read_response(const unsigned char *bytes, size_t size, int *status)
{
    size_t at = 0;
    Piece line, value;
    next_line(bytes, size, &at, &line);
    next_word(&line);
    *status = atoi((const char *)next_word(&line).at);
    if (*status < 100 || *status > 999 || !are_headers(bytes, size, at))
        return IS_BAD;
    if (*status != 200)
        return IS_STATUS;
    if (!header(bytes, size, "Transfer-Encoding", &value))
        return ACCEPTED;
    return is_text_of_any_case(value, "chunked") ? ACCEPTED_CHUNKED : IS_CODING;
}

int read_answer(const unsigned char *bytes, size_t size, size_t *head, int *status)
{
    size_t at = 0;
    Piece line;
    if (!next_line(bytes, size < LONGEST_HEAD ? size : LONGEST_HEAD, &at, &line))
        return size < LONGEST_HEAD ? GOES_ON : IS_LONG;
    *head = at;
    if (is_text(line, "ICY 200 OK"))
        return ACCEPTED;
    if (begins_with(line, "SOURCETABLE"))
        return IS_TABLE;
    if (!begins_with(line, "HTTP/"))
        return IS_BAD;
    *head = head_size(bytes, size);
    if (!*head)
        return size < LONGEST_HEAD ? GOES_ON : IS_LONG;
    return read_response(bytes, *head, status);
}

/* ---- reports */

/* An angle of `digits` digits of degrees and minutes with decimals, in units of 10^-7 degree, rounded down. */
static int read_angle(const char *text, int digits, long most, long *angle)
{
    long degrees = 0, minutes = 0, scale = 100000;
    for (int at = 0; at < digits + 2; at++)
        if (!isdigit((unsigned char)text[at]))
            return 0;
    for (int at = 0; at < digits; at++)
        degrees = degrees * 10 + text[at] - '0';
    minutes = ((text[digits] - '0') * 10 + text[digits + 1] - '0') * scale;
    if (minutes >= 60 * scale || (text[digits + 2] && text[digits + 2] != '.'))
        return 0;
    for (const char *at = text + digits + 2; *at; at++) {
        if (at > text + digits + 2 && !isdigit((unsigned char)*at))
            return 0;
        if (at > text + digits + 2)
            minutes += (*at - '0') * (scale /= 10);
    }
    *angle = degrees * 10000000 + minutes * 5 / 3;
    return *angle <= most;
}

static int read_side(const char *letter, const char *sides, long *angle)
{
    if (strlen(letter) != 1 || !strchr(sides, *letter))
        return 0;
    if (*letter == sides[1])
        *angle = -*angle;
    return 1;
}

/* Whether the line is a GGA sentence of NMEA 0183 with 14 fields, its checksum and a fix; and its position. */
int read_report(const unsigned char *line, size_t size, Position *at)
{
    char text[160], end[8], *field[16], *rest = text;
    int sum = 0, count = 0;
    if (size < 10 || size > 128 || line[0] != '$' || line[size - 3] != '*')
        return 0;
    memcpy(text, line + 1, size - 4);
    text[size - 4] = 0;
    for (char *one = text; *one; one++)
        sum ^= (unsigned char)*one;
    snprintf(end, sizeof end, "%02X", sum & 255);
    if (strncasecmp(end, (const char *)line + size - 2, 2) || strchr(text, '*'))
        return 0;
    while (count < 16 && (field[count] = strsep(&rest, ",")))
        count++;
    if (count != 15 || strlen(field[0]) != 5 || strcmp(field[0] + 2, "GGA") || strlen(field[6]) != 1
        || *field[6] < '1' || *field[6] > '9')
        return 0;
    return read_angle(field[2], 2, 900000000, &at->lat) && read_angle(field[4], 3, 1800000000, &at->lon)
           && read_side(field[3], "NS", &at->lat) && read_side(field[5], "EW", &at->lon);
}

/* ---- the sourcetable */

static void degrees_text(long angle, char text[32])
{
    long hundredths = labs(angle) / 100000;
    snprintf(text, 32, "%s%ld.%02ld", angle < 0 && hundredths ? "-" : "", hundredths / 100, hundredths % 100);
}

static int is_open_to_all(const World *world, int heard)
{
    const Group *group = &world->group[world->anonymous_group];
    for (int at = 0; world->has_anonymous && at < group->count; at++)
        if (group->heard[at] == heard)
            return 1;
    return 0;
}

static void station_line(const World *world, const Mount *mount, const char *near, int heard, Text *table)
{
    char lat[32], lon[32];
    const char *identifier = near ? near : *mount->identifier ? mount->identifier : mount->name;
    degrees_text(mount->at.lat, lat);
    degrees_text(mount->at.lon, lon);
    say(table, "STR;%s;%s;RTCM 3.3;%s;2;GPS;;;%s;%s;%s;;none;%c;N;%d;%s\r\n", near ? near : mount->name, identifier,
        mount->details, lat, lon, near ? "1;1" : "0;0", is_open_to_all(world, heard) ? 'N' : 'B', mount->bitrate,
        mount->misc);
}

void table_text(const World *world, Text *table)
{
    if (*world->record)
        say(table, "%s\r\n", world->record);
    for (int at = 0; at < world->mounts; at++)
        station_line(world, &world->mount[at], NULL, at, table);
    for (int at = 0; at < world->nears; at++)
        station_line(world, &world->mount[world->near[at].base[0]], world->near[at].name, world->mounts + at, table);
    say(table, "ENDSOURCETABLE\r\n");
}
