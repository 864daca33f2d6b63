/* Hoursquall from C. The deck computer learns the sound speed from a firmware table and sends it to
 * the towed head, twice. The second time the cable loses a frame, and the head gives notice.
 *
 *     scripts/build.sh libraries
 *     cc -std=c11 -Iinclude examples/c/main.c target/staticlib/libhoursquall.a */
#include <inttypes.h>
#include <stdio.h>
#include <stdlib.h>
#include <string.h>

#include "hoursquall.h"

enum { HEAD = 10, DECK = 11, PIECE = 3, BASE = 4096 };

/* Memory from address BASE on: the root table, whose first two slots are empty, and behind it the
 * table that its third slot leads to. */
static const uint8_t memory[] = {
    'r', 'o', 'o', 't', '_', 't', 'a', 'b', 'l', 'e', 0, 0, 0, 0, 0, 0,
    64, 0, 0, 0, 1, 0, 0, 0, 0, 0, 0, 0, 0x3F, 0xA6, 0x2E, 0x29,
    3, 0, 0, 0, 0, 0, 0, 0, 0, 0, 0, 0, 0, 0, 0, 0,
    0, 0, 0, 0, 0, 0, 0, 0, 0x40, 0x10, 0, 0, 0, 0, 0, 0,
    's', 'o', 'u', 'n', 'd', '_', 's', 'p', 'e', 'e', 'd', 0, 0, 0, 0, 0,
    40, 0, 0, 0, 1, 0, 0, 0, 0, 0, 0, 0, 0x4A, 0x2A, 0x4B, 0x76,
    '1', '4', '8', '7', ' ', 'm', '/', 's',
};

/* What the head keeps from frame to frame. A state of zeros: no message is open. */
static uint64_t state[HS_STATE_NUMBERS];
static uint8_t buffer[HS_MESSAGE_MAX];

/* Ends the program if a call is refused that should not be. */
static void must(uint32_t answer) {
    if (answer != HS_OK) {
        fprintf(stderr, "refused with %" PRIu32 "\n", answer);
        exit(EXIT_FAILURE);
    }
}

/* What the head was just handed up: the carried words of a message, and its bytes. */
static void say_message(const uint32_t words[HS_WORDS]) {
    printf("delivered, sequence %" PRIu32 ", message %" PRIu32 ", sender %" PRIu32
           ", status %" PRIu32 ": %.*s\n",
           words[HS_WORD_SEQUENCE], words[HS_WORD_ID], words[HS_WORD_SENDER],
           words[HS_WORD_STATUS], (int)words[HS_WORD_TOTAL], (const char *)buffer);
}

/* The deck computer writes the frames of a message, and the head takes all but the lost one. A
 * refusal is no reason to stop: nothing is handed up, and the state is ready for what follows. */
static void transmit(uint8_t sequence, uint32_t id, const uint8_t *message, size_t length,
                     size_t lost) {
    size_t frames, frame_len;
    must(hs_frame_count(length, PIECE, &frames));
    printf("message %" PRIu32 ", %zu bytes in %zu frames\n", id, length, frames);
    for (size_t index = 0; index < frames; index++) {
        uint8_t frame[HS_FRAME_MAX];
        must(hs_frame_write(sequence, id, DECK, 0, HEAD, message, length, PIECE, index, frame,
                            sizeof frame, &frame_len));
        if (index == lost) continue;
        uint32_t words[HS_WORDS];
        uint32_t answer =
            hs_reassembly_step(state, frame, frame_len, HEAD, buffer, sizeof buffer, words);
        printf("  index %zu, %zu bytes: ", index, frame_len);
        if (answer == HS_MORE)
            printf("more wanted\n");
        else if (answer == HS_DELIVERED)
            say_message(words);
        else
            printf("refused with %" PRIu32 "\n", answer);
    }
}

int main(void) {
    const char *name = "sound_speed", *text = "send message 2 again";
    size_t body[HS_BODY_NUMBERS]; /* slot, offset in memory, length */
    must(hs_ubios_find(memory, sizeof memory, BASE, BASE, (const uint8_t *)name, strlen(name),
                       body));
    const uint8_t *speed = memory + body[1];
    printf("slot %zu, %s: %.*s\n", body[0], name, (int)body[2], (const char *)speed);

    transmit(7, 1, speed, body[2], SIZE_MAX); /* none is lost */
    transmit(8, 2, speed, body[2], 1);

    uint8_t ring[64], data[HS_NOTICE_MAX];
    size_t data_len, positions[HS_POSITIONS] = {0, 0}; /* equal positions: the ring is empty */
    uint32_t id;
    must(hs_notice_post(ring, sizeof ring, positions, 6, (const uint8_t *)text, strlen(text)));
    must(hs_notice_take(ring, sizeof ring, positions, data, sizeof data, &id, &data_len));
    printf("notice %" PRIu32 ": %.*s\n", id, (int)data_len, (const char *)data);
    return EXIT_SUCCESS;
}
