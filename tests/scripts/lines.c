/* The text of a script, right or with a fault, and the sessions that docs/FORMATS.md makes from a number. */
#include <stdio.h>
#include <string.h>

#include "scripts.h"

static void event_line(const Event *event, const Text *bytes, Text *text)
{
    static const char *words[] = {"source", "rover", "open", "relay", "in", "turn", "break", "end"};
    say(text, "%s %d", words[event->kind], event->number);
    if (event->kind == SOURCE || event->kind == ROVER)
        say(text, " %s", event->name);
    if (event->kind == RELAY)
        say(text, " %d", event->value + 1);
    if (event->kind == TURN)
        say(text, " %d", event->value);
    if (event->kind == IN) {
        say(text, " ");
        put_hex(text, bytes->at + event->from, event->size);
    }
}

static void to_capitals(Text *text, size_t from)
{
    for (size_t at = from; at < text->size; at++)
        if (text->at[at] >= 'a' && text->at[at] <= 'f')
            text->at[at] -= 32;
}

/* A line that is of no form of its kind. */
static void line_fault(Dice *dice, int is_bare, Text *text)
{
    static const char *some[] = {"turn 1 17", "turn 1 0", "in 1 0", "in 1 zz", "end 0", "end 10000", "foo", "turn  1 2",
        " stop", "stop ", "in 1 ", "in 1", "end 01", "END 1", "break 1 1", "turn 1 016", "end -1", "in 1 D3 00",
        "Stop"};
    static const char *of_replay[] = {"open", "open 0", "open 1 A", "source 1 A", "rover 1 A", "relay 1 0", "relay 1"};
    static const char *of_bare[] = {"open 1", "relay 1 1", "source 1", "rover 1 A/B", "source 1 A B", "rover 0 A",
        "rover"};
    say(text, "%s", chance(dice, 60) ? some[below(dice, 19)] : (is_bare ? of_bare : of_replay)[below(dice, 7)]);
}

/* A line that opens a number which was opened before, or names one that is not open. */
static int state_fault(Dice *dice, const Script *script, const World *world, int before, int is_bare, Text *text)
{
    static const char *forms[] = {"end %d", "break %d", "in %d d3", "turn %d 1"};
    const Event *one = before ? &script->event[below(dice, before)] : NULL;
    if (!is_bare && chance(dice, 10))
        say(text, "relay 9999 %d", world->relays + 1);
    else if (!one || chance(dice, 20))
        say(text, forms[below(dice, 4)], 8888);
    else if (one->kind <= RELAY)
        say(text, is_bare ? "rover %d A" : "open %d", one->number);
    else if (one->kind >= BREAK)
        say(text, forms[below(dice, 4)], one->number);
    else
        return 0;
    return 1;
}

void script_text(Dice *dice, const Script *script, const World *world, int is_bare, int fault, Text *text, Text *said)
{
    int place = fault ? (int)below(dice, script->count + 1) : -1, line = 0, is_crlf = chance(dice, 10);
    int without_stop = fault && chance(dice, 15), is_state = chance(dice, 40), is_told = 0;
    text->size = said->size = 0;
    for (int at = 0; at <= script->count; at++) {
        if (chance(dice, 3)) {
            say(text, is_crlf ? "# turn 1 99\r\n\r\n" : "#\n\n");
            line += 2;
        }
        if (at == place && !without_stop) {
            is_told = is_state && state_fault(dice, script, world, at, is_bare, text);
            if (!is_told)
                line_fault(dice, is_bare, text);
            say(said, is_told ? "session: state %d\n" : "session: line %d\n", line + 1);
            say(text, is_crlf ? "\r\n" : "\n");
            line++;
        }
        size_t from = text->size;
        if (at < script->count)
            event_line(&script->event[at], &script->bytes, text);
        else if (!without_stop)
            say(text, "stop");
        if (at < script->count && script->event[at].kind == IN && chance(dice, 10))
            to_capitals(text, from + 2);
        say(text, is_crlf ? "\r\n" : "\n");
        line++;
    }
    if (without_stop)
        say(said, "session: no stop\n");
    else if (chance(dice, 5))
        say(text, "what follows is not looked at\nstop\n");
    else if (chance(dice, 5) && !is_crlf)
        text->size--;
}

/* ---- sessions made from a number */

static uint64_t next_draw(uint64_t *state, uint64_t bound)
{
    *state = *state * 6364136223846793005u + 1442695040888963407u;
    return (*state >> 33) % bound;
}

static Event *add(Script *script, int kind, int number, int value)
{
    Event *event = &script->event[script->count++];
    memset(event, 0, sizeof *event);
    event->kind = kind;
    event->number = number;
    event->value = value;
    strcpy(event->name, "A");
    return event;
}

static void made_frame(uint64_t *state, Script *script)
{
    unsigned char one[110];
    int size = next_draw(state, 99) + 2, number = next_draw(state, 229) + 1001;
    one[0] = 0xD3;
    one[1] = 0;
    one[2] = size;
    one[3] = number >> 4;
    one[4] = number << 4;
    for (int at = 2; at < size; at++)
        one[3 + at] = next_draw(state, 256);
    uint32_t sum = checksum(one, size + 3);
    for (int at = 0; at < 3; at++)
        one[size + 3 + at] = sum >> (16 - 8 * at);
    Event *event = add(script, IN, 1, 0);
    event->from = script->bytes.size;
    event->size = size + 6;
    put(&script->bytes, one, size + 6);
}

void made_script(uint64_t seed, int frames, int rovers, Script *script)
{
    script->count = 0;
    script->bytes.size = 0;
    add(script, SOURCE, 1, 0);
    for (int at = 0; at < rovers; at++)
        add(script, ROVER, at + 2, 0);
    for (int left = frames; left > 0; left--) {
        made_frame(&seed, script);
        int rover = next_draw(&seed, rovers) + 2;
        add(script, TURN, rover, next_draw(&seed, 16) + 1);
    }
    for (int at = 0; at < rovers; at++)
        add(script, TURN, at + 2, 16);
}
