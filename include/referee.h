/* The referee of Invasion: America as a C library: link libreferee.a, made by `rt lib` in crates/referee.
 *
 * A position is the bytes that the rules lay out. Its desk has 56 bytes, or 60 if it names the player of each force in the last four:
 * bytes 56 to 59 are the players of force 0, 1, 2 and 3, each 0 to 3, and force 3's is no other's. On a desk of 56 bytes each force has
 * its own player. Forces of two players are Enemy, two forces of one player are neutral to each other.
 *
 * Nothing is set up and nothing is kept between calls. Every call takes anything: any bytes, any length, a null pointer with length 0.
 * Lent regions must not overlap. No call uses more than 2,048 bytes of stack.
 *
 * The answer's low byte is the refusal's number, 0 if the call is accepted. Of a refusal bits 8 to 23 are the place in the list or
 * path, counted from 1, and 0 if there is none. Of an accepted attack bits 8 to 15 are the column, counted from 1, and bits 16 to 23
 * the result code. Of an accepted retreat bits 8 to 15 are 1 if the group retreated, and then bits 16 to 31 its end hex, or 2 if it
 * was destroyed. All other bits are 0. A refused call changes no byte that was lent.
 *
 * Refusal 1: the position breaks a line of its rules; nothing further is looked at. Single numbers are 32 bits wide, so that no
 * number is cut to a legal one: out of range they are refusal 3. */
#ifndef REFEREE_H
#define REFEREE_H

#include <stddef.h>
#include <stdint.h>

#ifdef __cplusplus
extern "C" {
#endif

/* Which hexes are supplied for a nationality (0 S.A.U., 1 E.S.C., 2 P.A.L., 3 US, 4 Canada), in any phase and stage: 1 or 0 for
 * each hex, into a buffer of exactly width x height bytes. The position is only read.
 * Refusals in order: 1; 3 the buffer's length; 3 a nationality above 4. */
uint64_t ia_supply(const uint8_t *pos, size_t pos_len, uint32_t nationality, uint8_t *out, size_t out_len);

/* A unit goes along a path of 1 to 30 hexes. Accepted: its hex and its moved mark change, nothing else.
 * Refusals in order: 1; 3 the path's length; 3 no such unit; 3 at the first number that is no hex, with its place; 2 wrong stage
 * or phase; 4 destroyed or not of the phasing force; 5 its type or its moved mark; then at each step with its place 9 the step
 * leaves an Enemy zone that the path entered, 7 no such step, 8 Enemy there, 18 a neutral force there, 10 over allowance; last 11
 * three others where the path ends, with the last place. */
uint64_t ia_move(uint8_t *pos, size_t pos_len, uint32_t unit, const uint16_t *path, size_t path_len);

/* The phase ends: moved and fought are cleared on all units, the clock moves on, and on entering phase 0 or 2 the mapped units of
 * the force then phasing get or lose the supplied mark. The scratch has exactly width x height bytes and is handed back all 0.
 * Refusals in order: 1; 3 the scratch's length; 2 wrong stage; 16 last phase of the last turn. */
uint64_t ia_end_phase(uint8_t *pos, size_t pos_len, uint8_t *scratch, size_t scratch_len);

/* Units of a list of 1 to 18 attack the units on the target hex, with a die of 1 to 6. Accepted: the answer has column and result
 * code; all that take part are turned over and marked fought, the result is carried out, and what it asks for next stands on the
 * desk. The scratch has exactly width x height bytes and is handed back all 0.
 * Refusals in order: 1; 3 the list's length; 3 the scratch's length; 3 the target is no hex; 3 the die; 3 at the first number that
 * is no unit, with its place; 2 wrong stage or phase; 12 no Enemy on the target, or a unit there has fought; then for each unit
 * with its place 4 destroyed or not of the phasing force, 5 its type or its fought mark, 6 named before, 13 not beside the target
 * over an unblocked side. */
uint64_t ia_attack(uint8_t *pos, size_t pos_len, uint32_t target, const uint16_t *units, size_t units_len, uint32_t die,
                   uint8_t *scratch, size_t scratch_len);

/* In stage 1 the units that owe in a hex go together along a route of as many hexes as are owed: over unblocked sides, into vacant
 * unprohibited land or coast outside Enemy zones, ending as far from the start as they are many. Pushes are then not sent: pushes_len
 * is 0. If there is no such route, the group may go through hexes of its own force and push the stacks there out of its road. The
 * pushes are the hexes that these go to, step by step: for a step into a held hex where the stack there goes; if that hex is held too,
 * where that stack goes, and so on until one is vacant; for a step into a vacant hex none. docs/CALLS.md says which pushes are legal.
 * If neither exists, the group goes as far as it can and is destroyed there. The route is then a part route: a run of steps like those
 * of a vacant route, after i steps at distance i from the start, and as long as any such run; pushes_len is 0. If only supply units
 * owe there, they are destroyed, and both lengths are 0. In each case start and route are written.
 * Refusals in order: 1; 3 a route of more than 3; 3 pushes of more than 9; 3 no such hex; 3 at the first number that is no hex, with
 * its place, which counts on through route and pushes; 2 wrong stage; 4 nobody owes there; then by what there is: 14 only supply units
 * owe, and a route or pushes were sent; 14 a vacant route exists, and the route is none or pushes were sent; 17 only pushes serve, and
 * route and pushes are not legal together; 14 nothing serves, and the route is no longest part route or pushes were sent. */
uint64_t ia_retreat(uint8_t *pos, size_t pos_len, uint32_t hex, const uint16_t *route, size_t route_len, const uint16_t *pushes,
                    size_t pushes_len);

/* In stage 2 units of a list of 1 to 18 are the losses of an exchange: they are destroyed, and the survivors may advance.
 * Refusals in order: 1; 3 the list's length; 3 at the first number that is no unit, with its place; 2 wrong stage; then for each unit
 * with its place 4 it does not owe, 6 named before; last 15 the printed total falls short of need though not all are named, or
 * special infantry of the phasing force is passed over. */
uint64_t ia_losses(uint8_t *pos, size_t pos_len, const uint16_t *units, size_t units_len);

/* In stage 3 a unit that may advance goes to a hex of a route that starts beside it, with no Enemy and no neutral force
 * from its start to that hex.
 * Refusals in order: 1; 3 no such unit; 3 no such hex; 2 wrong stage; 4 it may not advance; 5 a supply unit; 7 no route; 11 three
 * others there. */
uint64_t ia_advance(uint8_t *pos, size_t pos_len, uint32_t unit, uint32_t hex);

/* Stage 3 ends: all roles are cleared, and the routes.
 * Refusals in order: 1; 2 wrong stage. */
uint64_t ia_close(uint8_t *pos, size_t pos_len);

#ifdef __cplusplus
}
#endif

#endif
