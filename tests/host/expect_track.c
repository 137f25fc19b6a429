/* What check, start and frames say of a track, against what is wanted of them. */
#include "host_test.h"

#include <string.h>

void expect_verdict(const setup *s, uint32_t number, const uint32_t wanted[HEM_VERDICT_WORDS])
{
    uint32_t verdict[HEM_VERDICT_WORDS] = { 0 };
    EXPECT(hem_check(SETUP(s), verdict, HEM_VERDICT_WORDS) == number);
    EXPECT(memcmp(verdict, wanted, sizeof verdict) == 0);
}

void start_track(const setup *s, uint32_t frame, hem_player *player)
{
    EXPECT(hem_start(player, SETUP(s)) == HEM_OK);
    EXPECT(player->frames_left == frame && player->pass_length == frame);
}

void expect_pass(const setup *s, uint32_t frame, uint32_t channel)
{
    const uint32_t wanted[HEM_VERDICT_WORDS] = { frame, channel, 0, 0 };
    hem_player player;
    expect_verdict(s, HEM_OK, wanted);
    start_track(s, frame, &player);
}

void expect_frame(const setup *s, hem_player *player, uint32_t number, uint32_t kind, uint32_t left, uint32_t channel,
                  uint32_t offset, uint32_t address)
{
    uint32_t answer[HEM_ANSWER_WORDS];
    EXPECT(hem_frame(player, SETUP(s), answer, HEM_ANSWER_WORDS) == number);
    EXPECT(answer[HEM_ANSWER_KIND] == kind && answer[HEM_ANSWER_LEFT] == left);
    EXPECT(answer[HEM_ANSWER_CHANNEL] == channel && answer[HEM_ANSWER_OFFSET] == offset);
    EXPECT(answer[HEM_ANSWER_ADDRESS] == address);
}

void expect_events(const setup *s, hem_player *player, uint32_t frames)
{
    for (uint32_t left = frames; left > 0; left--)
        expect_frame(s, player, HEM_OK, HEM_EVENTS, left, 0, 0, 0);
}

void expect_fault(const setup *s, uint32_t number, uint32_t channel, uint32_t offset, uint32_t frame, uint32_t address)
{
    const uint32_t wanted[HEM_VERDICT_WORDS] = { channel, offset, frame, address };
    hem_player player;
    expect_verdict(s, number, wanted);
    start_track(s, frame, &player);
    expect_events(s, &player, frame);
    expect_frame(s, &player, number, HEM_REFUSED, 0, channel, offset, address);
    expect_frame(s, &player, number, HEM_REFUSED, 0, channel, offset, address);
}
