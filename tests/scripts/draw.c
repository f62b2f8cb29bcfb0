/* Configurations that are drawn, and their text. */
#include <stdio.h>
#include <string.h>

#include "scripts.h"

/* Message numbers of which groups hear some. */
static const int NUMBERS[] = {1005, 1077, 4095, 0, 1, 1230};

static void draw_types(Dice *dice, Types *types)
{
    memset(types, 0, sizeof *types);
    types->is_all = chance(dice, 50);
    types->count = 1 + below(dice, TYPES);
    for (int at = 0; at < types->count; at++)
        types->number[at] = NUMBERS[below(dice, 6)];
}

/* Some of the numbers below this one, each once, in any order. */
static int draw_some(Dice *dice, int bound, int least, int *numbers)
{
    int all[MOUNTS + NEARS], count = least + below(dice, bound - least + 1);
    for (int at = 0; at < bound; at++)
        all[at] = at;
    for (int at = 0; at < count; at++) {
        int other = at + below(dice, bound - at), one = all[other];
        all[other] = all[at];
        numbers[at] = all[at] = one;
    }
    return count;
}

static void draw_mount(Dice *dice, Mount *mount, int number)
{
    static const char *names[] = {"A%d", "ALPHA%d", "m-%d_x~", "Z%d.$&", "%d"};
    memset(mount, 0, sizeof *mount);
    snprintf(mount->name, NAME, names[below(dice, 5)], number);
    snprintf(mount->password, NAME, "pw%d", below(dice, 2));
    mount->ring = chance(dice, 80) ? 1 + below(dice, 6) : 1 + below(dice, 4096);
    mount->at.lat = (long)below(dice, 3) * 2500000 + 480000000 - (chance(dice, 5) ? 960000000 : 0);
    if (chance(dice, 85))
        mount->at.lon = 115000000 + (long)below(dice, 3) * 2500000;
    else
        mount->at.lon = 1799000000 - 3598000000 * below(dice, 2);
    if (chance(dice, 20))
        mount->at.lat = mount->at.lon = -99999 + (long)below(dice, 300000);
    if (chance(dice, 30)) {
        strcpy(mount->identifier, "Some where");
        strcpy(mount->details, "1005(10),1077(1)");
        strcpy(mount->misc, "more");
        mount->bitrate = below(dice, 10000);
    }
}

static void draw_group(Dice *dice, World *world, int number)
{
    Group *group = &world->group[number];
    memset(group, 0, sizeof *group);
    snprintf(group->name, NAME, "g%d", number);
    group->count = draw_some(dice, world->mounts + world->nears, 0, group->heard);
    if (world->is_field || chance(dice, 60))
        group->count = draw_some(dice, world->mounts + world->nears, world->mounts + world->nears, group->heard);
    draw_types(dice, &group->types);
    if (chance(dice, 40))
        group->filters = draw_some(dice, world->mounts, 1, group->filter_mount);
    for (int at = 0; at < group->filters; at++)
        draw_types(dice, &group->filter[at]);
}

static void draw_relay(Dice *dice, World *world, int number)
{
    Relay *relay = &world->relay[number];
    memset(relay, 0, sizeof *relay);
    relay->mount = below(dice, world->mounts);
    relay->protocol = 1 + below(dice, 2);
    snprintf(relay->address, NAME, "192.0.2.%d:2101", 1 + below(dice, 200));
    snprintf(relay->upstream, NAME, "UP%d", number);
    relay->has_user = chance(dice, 60);
    snprintf(relay->user, NAME, "%.*s", 1 + (int)below(dice, 6), "viewle");
    if (chance(dice, 80))
        snprintf(relay->password, NAME, "%.*s", 1 + (int)below(dice, 7), "se;cret");
}

void draw_world(Dice *dice, World *world)
{
    memset(world, 0, sizeof *world);
    world->is_field = chance(dice, 35);
    world->mounts = world->is_field ? MOUNTS : 1 + below(dice, MOUNTS);
    world->nears = world->is_field ? NEARS : below(dice, NEARS + 1);
    world->groups = 1 + below(dice, GROUPS);
    world->accounts = below(dice, USERS + 1);
    world->relays = below(dice, RELAYS + 1);
    world->hysteresis = chance(dice, 50) ? 10 : below(dice, 51);
    if (chance(dice, 20))
        strcpy(world->record, "NET;FIELD;Surveys;B;N;none;none;none;none");
    for (int at = 0; at < world->mounts; at++)
        draw_mount(dice, &world->mount[at], at);
    for (int at = 0; at < world->nears; at++) {
        snprintf(world->near[at].name, NAME, "NEAR%d", at);
        int least = chance(dice, 70) ? world->mounts : 1;
        world->near[at].count = draw_some(dice, world->mounts, least, world->near[at].base);
    }
    for (int at = 0; at < world->groups; at++)
        draw_group(dice, world, at);
    for (int at = 0; at < world->accounts; at++) {
        Account *account = &world->account[at];
        snprintf(account->user, NAME, "user%d", at);
        snprintf(account->password, NAME, "key;%d", below(dice, 2));
        account->group = below(dice, world->groups);
        account->cap = 1 + below(dice, 3);
    }
    for (int at = 0; at < world->relays; at++)
        draw_relay(dice, world, at);
    world->has_anonymous = world->is_field || chance(dice, 70);
    world->anonymous_group = below(dice, world->groups);
    world->anonymous_cap = (world->is_field ? LINKS : 1) + below(dice, 4);
}

/* The smallest configuration, of `bare`: one mountpoint that everybody may hear, and no account. */
void bare_world(World *world, int ring)
{
    memset(world, 0, sizeof *world);
    world->mounts = world->groups = world->has_anonymous = 1;
    strcpy(world->mount[0].name, "A");
    world->mount[0].ring = ring;
    world->group[0].count = 1;
    world->group[0].types.is_all = 1;
    world->anonymous_cap = 1 << 30;
}

/* ---- its text */

static void types_text(const Types *types, Text *text)
{
    if (types->is_all) {
        say(text, "types = \"all\"\n");
        return;
    }
    say(text, "types = [");
    for (int at = 0; at < types->count; at++)
        say(text, at ? ", %d" : "%d", types->number[at]);
    say(text, "]\n");
}

static void mount_text(const Mount *mount, Text *text)
{
    say(text, "[[mount]]\nname = \"%s\"\npassword = \"%s\"\nring = %d\nlatitude = %ld\nlongitude = %ld\n", mount->name,
        mount->password, mount->ring, mount->at.lat, mount->at.lon);
    if (*mount->identifier)
        say(text, "identifier = \"%s\"\ndetails = \"%s\"\nbitrate = %d\nmisc = \"%s\"\n", mount->identifier,
            mount->details, mount->bitrate, mount->misc);
}

static void group_text(const World *world, const Group *group, Text *text)
{
    say(text, "[[group]]\nname = \"%s\"\nmounts = [", group->name);
    for (int at = 0; at < group->count; at++) {
        int heard = group->heard[at];
        say(text, at ? ", \"%s\"" : "\"%s\"",
            heard < world->mounts ? world->mount[heard].name : world->near[heard - world->mounts].name);
    }
    say(text, "]\n");
    types_text(&group->types, text);
    for (int at = 0; at < group->filters; at++) {
        say(text, "[[group.filter]]\nmount = \"%s\"\n", world->mount[group->filter_mount[at]].name);
        types_text(&group->filter[at], text);
    }
}

static void relay_text(const World *world, const Relay *relay, Text *text)
{
    say(text, "[[relay]]\nmount = \"%s\"\naddress = \"%s\"\nupstream = \"%s\"\nprotocol = %d\n",
        world->mount[relay->mount].name, relay->address, relay->upstream, relay->protocol);
    if (relay->has_user)
        say(text, "user = \"%s\"\n", relay->user);
    if (*relay->password)
        say(text, "password = \"%s\"\n", relay->password);
}

void world_text(const World *world, Text *text)
{
    text->size = 0;
    say(text, "version = 2\nhysteresis = %d\n", world->hysteresis);
    if (*world->record)
        say(text, "records = [\"%s\"]\n", world->record);
    for (int at = 0; at < world->mounts; at++)
        mount_text(&world->mount[at], text);
    for (int at = 0; at < world->nears; at++) {
        say(text, "[[near]]\nname = \"%s\"\nbases = [", world->near[at].name);
        for (int k = 0; k < world->near[at].count; k++)
            say(text, k ? ", \"%s\"" : "\"%s\"", world->mount[world->near[at].base[k]].name);
        say(text, "]\n");
    }
    for (int at = 0; at < world->groups; at++)
        group_text(world, &world->group[at], text);
    for (int at = 0; at < world->accounts; at++)
        say(text, "[[account]]\nuser = \"%s\"\npassword = \"%s\"\ngroup = \"g%d\"\ncap = %d\n", world->account[at].user,
            world->account[at].password, world->account[at].group, world->account[at].cap);
    for (int at = 0; at < world->relays; at++)
        relay_text(world, &world->relay[at], text);
    if (world->has_anonymous)
        say(text, "[anonymous]\ngroup = \"g%d\"\ncap = %d\n", world->anonymous_group, world->anonymous_cap);
}
