/* Random Mother setups and records: legal most of the time. */
#ifndef GENERATOR_MOTHER_H
#define GENERATOR_MOTHER_H

#include "generator.h"
#include "setup_mother.h"

/* The banks are the last bytes of the two memories, each of LONGEST_BANK bytes. */
void random_mother_setup(mother_setup *s, uint8_t *memory8, uint8_t *memorya);
/* Nearly always one that the check passes: some have no channel, a row of 257 words, or an envelope without an end. */
void mild_mother_setup(mother_setup *s, uint8_t *memory8, uint8_t *memorya);
/* Changes one thing that the check of a track looks at. */
void spoil_mother_setup(const mother_setup *s);
/* Changes the size of a bank, a place or the track, or something else. Nothing can be put into the banks then. */
void damage_mother_setup(mother_setup *s);
/* Fields that the setup's blocks and playlists go on from, or with one thing wrong, or any bytes. */
void random_mother_record(hem_mother_player *player, const mother_setup *s);
/* Changes one field. */
void damage_mother_record(hem_mother_player *player);

#endif
