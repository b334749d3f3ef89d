/* Plays a few calls on a map of three hexes and prints the answers in words. */
#include <stdio.h>

#include "referee.h"

/* Three hexes in a row, hex 0 a supply hex of the US. A US infantry stands on hex 2, an E.S.C. infantry is destroyed.
 * It is turn 1, land movement of force 3. */
static uint8_t position[] = {
    20, 0, 36, 0, 56, 0, 9, 0, 65, 0, 17, 0, 82, 0, 18, 0, 100, 0,
    56, 0, 1, 1, 1, 1, 1, 1, 1, 1, 1, 1, 1, 1, 1, 1, 1, 1,
    1, 1, 1, 1, 1, 1, 1, 1, 1, 1, 1, 1, 1, 1, 1, 1, 1, 2,
    2, 3, 1, 1, 1, 1, 2, 3, 4, 7, 9, 3, 1, 0, 0, 4, 1, 0,
    0, 0, 0, 0, 0, 0, 0, 0, 0, 0, 2, 0, 3, 2, 2, 0, 5, 6,
    0, 0, 1, 2, 255, 255, 4, 6, 0, 0, 1, 60, 3, 0, 0, 0, 0, 0,
    255, 255, 255, 255, 255, 255, 255, 255, 255, 255, 255, 255, 255, 255, 255, 255, 255, 255,
    255, 255, 255, 255, 255, 255, 255, 255, 255, 255, 255, 255, 255, 255, 255, 255, 255, 255,
    255, 255, 255, 255, 255, 255, 255, 255, 255, 255, 255, 255};

/* Puts a unit on a hex. The fourth entry of the contents says where the units begin: two bytes of count, then eight for
 * each unit, of which the third and fourth are its hex. */
static void stand(unsigned unit, unsigned hex)
{
    unsigned units = position[12] + 256u * position[13];
    uint8_t *at = position + units + 2 + 8 * unit + 2;
    at[0] = (uint8_t)(hex % 256);
    at[1] = (uint8_t)(hex / 256);
}

static void say(const char *call, uint64_t answer)
{
    unsigned number = (unsigned)(answer & 255);
    unsigned place = (unsigned)(answer >> 8 & 65535);
    if (number == 0 && answer != 0) {
        printf("%s: column %u, result code %u\n", call, (unsigned)(answer >> 8 & 255), (unsigned)(answer >> 16 & 255));
    } else if (number == 0) {
        printf("%s: accepted\n", call);
    } else if (place == 0) {
        printf("%s: refused by %u\n", call, number);
    } else {
        printf("%s: refused by %u at place %u\n", call, number, place);
    }
}

int main(void)
{
    uint8_t map[3];
    const uint16_t west[] = {1, 0};
    const uint16_t away[] = {1, 3};
    const uint16_t jump[] = {0};
    const uint16_t infantry[] = {0};

    say("supply of the US", ia_supply(position, sizeof position, 3, map, sizeof map));
    printf("supplied hexes: %u %u %u\n", map[0], map[1], map[2]);
    say("supply of nobody", ia_supply(position, sizeof position, 5, map, sizeof map));
    say("move off the map", ia_move(position, sizeof position, 0, away, 2));
    say("move over a hex", ia_move(position, sizeof position, 0, jump, 1));
    say("move west", ia_move(position, sizeof position, 0, west, 2));
    say("move again", ia_move(position, sizeof position, 0, west, 2));
    say("end of the phase", ia_end_phase(position, sizeof position, map, sizeof map));
    say("move in combat", ia_move(position, sizeof position, 0, west, 2));
    say("attack on an empty hex", ia_attack(position, sizeof position, 1, infantry, 1, 3, map, sizeof map));
    /* The E.S.C. infantry is put on hex 1, beside the US infantry. */
    stand(1, 1);
    say("attack", ia_attack(position, sizeof position, 1, infantry, 1, 3, map, sizeof map));
    say("no position", ia_end_phase(NULL, 0, NULL, 0));
    return 0;
}
