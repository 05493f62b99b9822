/* The C interface held to document 01's edges, and to what include/sealwax.h says of pointers, buffers and sizes. */
#include "sealwax.h"
#include <stdio.h>
#include <string.h>

static int failures;

static void expect(int holds, const char *what, int line) {
    if (!holds) {
        printf("hosts/c/test.c:%d: %s\n", line, what);
        failures++;
    }
}
#define EXPECT(condition) expect((condition), #condition, __LINE__)

/* 01's list: key id 7, X25519, pair (1, 3). */
static const uint8_t list[43] = {0x00, 0x29, 0x07, 0x00, 0x20, 0x11, 0x11, 0x11, 0x11, 0x11, 0x11, 0x11, 0x11, 0x11, 0x11,
                                 0x11, 0x11, 0x11, 0x11, 0x11, 0x11, 0x11, 0x11, 0x11, 0x11, 0x11, 0x11, 0x11, 0x11, 0x11,
                                 0x11, 0x11, 0x11, 0x11, 0x11, 0x11, 0x11, 0x00, 0x04, 0x00, 0x01, 0x00, 0x03};
static const uint8_t info_of_7[29] = "message/bhttp request\0\x07\x00\x20\x00\x01\x00\x03";

static sealwax_gateway gateway;
static uint8_t request[65537];
static uint8_t enc[133], nonce[32];

static void fresh(uint64_t cap) {
    sealwax_setup_result ready = sealwax_setup(&gateway, list, sizeof list, cap);
    EXPECT(ready.outcome.number == SEALWAX_ACCEPTED && ready.keys == 1);
    memset(request, 0x33, sizeof request);
    memcpy(request, "\x07\x00\x20\x00\x01\x00\x03", 7);
}

static sealwax_admit_result admit(size_t length) {
    uint8_t info[SEALWAX_INFO_LENGTH];
    return sealwax_admit(&gateway, request, length, info, sizeof info);
}

static int all_are(const uint8_t *bytes, size_t length, uint8_t value) {
    for (size_t at = 0; at < length; at++) {
        if (bytes[at] != value) {
            return 0;
        }
    }
    return 1;
}

/* The refusal of this number, with this place. */
static int is_at(sealwax_outcome outcome, uint8_t number, size_t place) {
    return outcome.number == number && outcome.has_place && outcome.place == place;
}

static void setups(void) {
    uint8_t twice[86];
    memcpy(twice, list, 43);
    memcpy(twice + 43, list, 43);
    sealwax_setup_result answer = sealwax_setup(&gateway, twice, sizeof twice, 1);
    EXPECT(is_at(answer.outcome, SEALWAX_DUPLICATE_KEY_ID, 45) && answer.outcome.status == 0);
    EXPECT(is_at(sealwax_setup(&gateway, NULL, 0, 1).outcome, SEALWAX_LIST_TRUNCATED, 0));
    EXPECT(sealwax_setup(&gateway, list, 43, 0).outcome.number == SEALWAX_CAP_OUT_OF_RANGE);
    EXPECT(sealwax_setup(&gateway, list, 43, UINT64_MAX).outcome.number == SEALWAX_CAP_OUT_OF_RANGE);
    sealwax_report_result report = sealwax_report(&gateway);
    EXPECT(report.outcome.number == 0 && report.key_count == 0 && report.last_ticket == 0 && report.pending == 0);
    fresh(1);
    EXPECT(sealwax_check(list, 43).configurations == 1 && sealwax_check(list, 43).skipped == 0);
    sealwax_key_result key = sealwax_key(list, 43, 7);
    EXPECT(key.start == 5 && key.end == 37);
    sealwax_outcome none = sealwax_key(list, 43, 8).outcome;
    EXPECT(none.number == SEALWAX_NO_SUCH_KEY && !none.has_place && none.place == 0);
}

/* 02, A2: the list damaged in each of the five ways, and what every reader of lists then answers. */
static void damaged(const uint8_t *bytes, size_t length, uint8_t number, size_t place) {
    uint16_t kem = 0x0020, pair[2] = {1, 3};
    EXPECT(is_at(sealwax_check(bytes, length).outcome, number, place));
    EXPECT(is_at(sealwax_key(bytes, length, 7).outcome, number, place));
    EXPECT(is_at(sealwax_choose(bytes, length, &kem, 1, pair, 2).outcome, number, place));
    EXPECT(is_at(sealwax_setup(&gateway, bytes, length, 1).outcome, number, place));
}

static void damaged_lists(void) {
    static uint8_t bytes[17 * 43];
    for (size_t at = 0; at < 17; at++) {
        memcpy(bytes + at * 43, list, 43);
        bytes[at * 43 + 2] = (uint8_t)at;
    }
    EXPECT(sealwax_check(bytes, 16 * 43).configurations == 16);
    damaged(bytes, 17 * 43, SEALWAX_TOO_MANY_CONFIGURATIONS, 16 * 43);
    damaged(bytes, 16 * 43 + 1, SEALWAX_TOO_MANY_CONFIGURATIONS, 16 * 43);
    damaged(bytes, 44, SEALWAX_LIST_TRUNCATED, 43);
    damaged(bytes, 85, SEALWAX_LIST_TRUNCATED, 43);
    bytes[43 + 38] = 6; /* the second configuration's pair length, tested before its length */
    damaged(bytes, 86, SEALWAX_BAD_PAIR_LENGTH, 43 + 37);
    bytes[43 + 38] = 8;
    damaged(bytes, 86, SEALWAX_LENGTH_MISMATCH, 43);
    bytes[43 + 38] = 4;
    bytes[43 + 2] = 0;
    damaged(bytes, 86, SEALWAX_DUPLICATE_KEY_ID, 45);
}

/* 02, A2: the list writer's 3 has a place, and the other calls' have none. */
static void placed_or_not(void) {
    uint8_t id = 7, key[32] = {0}, buffer[50], any_enc[32] = {0}, head[SEALWAX_LONGEST_HEAD], info[SEALWAX_INFO_LENGTH];
    uint16_t kem = 0x0030, pair[2] = {1, 3};
    size_t key_length = 32, pair_count = 2;
    EXPECT(is_at(sealwax_write(&id, 1, &kem, 1, &key_length, 1, key, 32, &pair_count, 1, pair, 2, buffer, 50).outcome, SEALWAX_UNKNOWN_KEM, 3));
    sealwax_outcome without = sealwax_head(7, kem, 1, 3, any_enc, 32, head, sizeof head, info, sizeof info).outcome;
    EXPECT(without.number == SEALWAX_UNKNOWN_KEM && !without.has_place && without.place == 0);
    fresh(1);
    request[1] = 0x00;
    request[2] = 0x30;
    without = admit(55).outcome;
    request[2] = 0x20;
    EXPECT(without.number == SEALWAX_UNKNOWN_KEM && !without.has_place && without.place == 0);
}

static void admissions(void) {
    fresh(1000);
    EXPECT(sealwax_admit(&gateway, NULL, 0, NULL, 0).outcome.number == SEALWAX_TOO_SHORT);
    EXPECT(admit(54).outcome.number == SEALWAX_TOO_SHORT && admit(54).outcome.status == 400);
    EXPECT(admit(65537).outcome.number == SEALWAX_TOO_LONG && admit(65537).outcome.status == 413);
    uint8_t info[32];
    memset(info, 0xa5, sizeof info);
    sealwax_admit_result refused = sealwax_admit(&gateway, request, 55, info, 28);
    EXPECT(refused.outcome.number == SEALWAX_NO_ROOM && refused.outcome.status == 500 && all_are(info, sizeof info, 0xa5));
    sealwax_admit_result admitted = sealwax_admit(&gateway, request, 55, info, sizeof info);
    EXPECT(admitted.outcome.number == 0 && admitted.outcome.status == 0 && admitted.ticket == 1 && admitted.key_id == 7);
    EXPECT(admitted.kdf == 1 && admitted.aead == 3 && admitted.enc_start == 7 && admitted.enc_end == 39);
    EXPECT(admitted.ciphertext_start == 39 && admitted.ciphertext_end == 55);
    EXPECT(memcmp(info, info_of_7, 29) == 0 && all_are(info + 29, 3, 0xa5));
    EXPECT(admit(65536).ticket == 2);
    request[6] = 1;
    sealwax_outcome pair = admit(55).outcome;
    EXPECT(pair.number == SEALWAX_PAIR_NOT_OFFERED && pair.status == 400 && pair.problem == SEALWAX_OHTTP_KEY);
    request[2] = 0x10;
    EXPECT(admit(88).outcome.number == SEALWAX_OTHER_KEM && admit(88).outcome.problem == SEALWAX_OHTTP_KEY);
    request[2] = 0x22;
    EXPECT(admit(88).outcome.number == SEALWAX_UNKNOWN_KEM && admit(88).outcome.problem == SEALWAX_NO_PROBLEM);
    fresh(1000);
    request[0] = 8;
    EXPECT(admit(55).outcome.number == SEALWAX_NO_SUCH_KEY);
}

static void steps(void) {
    fresh(2);
    EXPECT(admit(55).ticket == 1 && admit(55).ticket == 2 && admit(55).outcome.number == SEALWAX_KEY_USED_UP);
    uint8_t salt[SEALWAX_LONGEST_SALT];
    memset(salt, 0xa5, sizeof salt);
    EXPECT(sealwax_respond(&gateway, 1, enc, 32, nonce, 32, 5, salt, sizeof salt).outcome.number == SEALWAX_STEP_NOT_ALLOWED);
    EXPECT(sealwax_open(&gateway, 1, 1, 1).outcome.number == SEALWAX_WRONG_LENGTH);
    EXPECT(sealwax_open(&gateway, 0, 1, 0).outcome.number == SEALWAX_NOT_PENDING);
    EXPECT(sealwax_open(&gateway, 1, 255, 0).opened == 1);
    EXPECT(sealwax_respond(&gateway, 1, enc, 32, nonce, 12, 5, salt, sizeof salt).outcome.number == SEALWAX_WRONG_LENGTH);
    EXPECT(sealwax_respond(&gateway, 1, enc, 32, nonce, 32, 5, salt, 63).outcome.number == SEALWAX_NO_ROOM);
    EXPECT(all_are(salt, sizeof salt, 0xa5));
    memset(enc, 0xee, 32);
    memset(nonce, 0x44, 32);
    sealwax_respond_result sealed = sealwax_respond(&gateway, 1, enc, 32, nonce, 32, 5, salt, sizeof salt);
    EXPECT(sealed.outcome.number == 0 && sealed.outcome.status == 200 && sealed.length == 53);
    EXPECT(all_are(salt, 32, 0xee) && all_are(salt + 32, 32, 0x44) && all_are(salt + 64, sizeof salt - 64, 0xa5));
    EXPECT(sealwax_abandon(&gateway, 1).number == SEALWAX_NOT_PENDING);
    sealwax_open_result failed = sealwax_open(&gateway, 2, 0, UINT64_MAX);
    EXPECT(failed.outcome.number == 0 && failed.outcome.status == 422 && failed.opened == 0);
    sealwax_report_result report = sealwax_report(&gateway);
    EXPECT(report.last_ticket == 2 && report.pending == 0 && report.keys[0].count == 2 && !report.keys[0].retired);
    EXPECT(sealwax_retire(&gateway, 9).number == SEALWAX_NO_SUCH_KEY && sealwax_retire(&gateway, 7).number == 0);
    EXPECT(sealwax_retire(&gateway, 7).number == SEALWAX_KEY_RETIRED && admit(55).outcome.number == SEALWAX_KEY_RETIRED);
}

/* Both searches find a ticket at its home, or where its home is taken at the first place that was free, and no ticket that is not pending. */
static void searches(void) {
    fresh(1000);
    EXPECT(sealwax_plain_find(&gateway, 0) == 0 && sealwax_find(&gateway, 0, 1) == 1);
    for (uint64_t ticket = 1; ticket <= 128; ticket++) {
        EXPECT(admit(55).ticket == ticket);
        EXPECT(sealwax_find(&gateway, ticket, ticket) == ticket % 128 && sealwax_plain_find(&gateway, ticket) == ticket % 128);
    }
    EXPECT(sealwax_plain_find(&gateway, 0) == 128 && sealwax_find(&gateway, 0, 129) == 128);
    EXPECT(sealwax_abandon(&gateway, 64).number == 0 && admit(55).ticket == 129);
    EXPECT(sealwax_find(&gateway, 129, 129) == 64 && sealwax_plain_find(&gateway, 129) == 64);
    EXPECT(sealwax_find(&gateway, 64, 64) == 128 && sealwax_plain_find(&gateway, UINT64_MAX) == 128);
}

/* A gateway is a value: a copy goes its own way. Refused calls leave counts, tickets and every exchange as they were. */
static void memory(void) {
    fresh(1000);
    for (uint64_t ticket = 1; ticket <= 128; ticket++) {
        EXPECT(admit(55).ticket == ticket);
    }
    static sealwax_gateway copy;
    memcpy(&copy, &gateway, sizeof copy);
    EXPECT(admit(55).outcome.number == SEALWAX_TABLE_FULL && admit(55).outcome.status == 503);
    EXPECT(sealwax_open(&gateway, 5, 1, 7).outcome.number == SEALWAX_WRONG_LENGTH);
    EXPECT(sealwax_abandon(&gateway, 129).number == SEALWAX_NOT_PENDING);
    EXPECT(sealwax_retire(&gateway, 0).number == SEALWAX_NO_SUCH_KEY);
    sealwax_report_result report = sealwax_report(&gateway);
    EXPECT(report.last_ticket == 128 && report.pending == 128 && report.keys[0].count == 128 && !report.keys[0].retired);
    for (uint64_t ticket = 1; ticket <= 128; ticket++) {
        EXPECT(sealwax_open(&gateway, ticket, 1, 0).opened == 1);
    }
    EXPECT(sealwax_abandon(&gateway, 64).number == 0 && admit(55).ticket == 129);
    EXPECT(sealwax_report(&copy).last_ticket == 128 && sealwax_report(&gateway).last_ticket == 129);
}

static void clients(void) {
    const uint16_t kems[1] = {0x0020}, pairs[2] = {1, 3};
    sealwax_choose_result chosen = sealwax_choose(list, 43, kems, 1, pairs, 2);
    EXPECT(chosen.key_id == 7 && chosen.kem == 0x0020 && chosen.kdf == 1 && chosen.aead == 3);
    EXPECT(chosen.key_start == 5 && chosen.key_end == 37);
    EXPECT(sealwax_choose(list, 43, NULL, 0, pairs, 2).outcome.number == SEALWAX_NO_USABLE_CONFIGURATION);
    EXPECT(sealwax_choose(list, 43, kems, 1, pairs, 1).outcome.number == SEALWAX_WRONG_LENGTH);
    uint8_t head[SEALWAX_LONGEST_HEAD], info[SEALWAX_INFO_LENGTH];
    memset(head, 0xa5, sizeof head);
    sealwax_head_result written = sealwax_head(7, 0x0020, 1, 3, enc, 32, head, sizeof head, info, sizeof info);
    EXPECT(written.outcome.number == 0 && written.length == 39 && memcmp(info, info_of_7, 29) == 0);
    EXPECT(memcmp(head, info + 22, 7) == 0 && memcmp(head + 7, enc, 32) == 0 && all_are(head + 39, sizeof head - 39, 0xa5));
    EXPECT(sealwax_head(7, 0x0012, 1, 3, enc, 133, head, sizeof head, info, sizeof info).length == SEALWAX_LONGEST_HEAD);
    sealwax_split_result split = sealwax_split(1, request, 40);
    EXPECT(split.nonce_length == 16 && split.ciphertext_length == 24);
    EXPECT(sealwax_split(1, request, 31).outcome.number == SEALWAX_TOO_SHORT);
    EXPECT(sealwax_split(0xffff, request, 40).outcome.number == SEALWAX_PAIR_NOT_OFFERED);
    uint8_t context[SEALWAX_EXPORTER_CONTEXT_LENGTH];
    sealwax_exporter_result exporter = sealwax_exporter(2, context, sizeof context);
    EXPECT(exporter.context_length == 22 && exporter.secret_length == 32 && memcmp(context, "message/bhttp response", 22) == 0);
    EXPECT(sealwax_exporter(2, context, 21).outcome.number == SEALWAX_NO_ROOM);
    EXPECT(sealwax_exporter(4, context, 22).outcome.number == SEALWAX_PAIR_NOT_OFFERED);
}

/* The longest list: sixteen keys of P-521 with sixteen pairs each. */
static void longest_list(void) {
    static uint8_t ids[16], keys[16 * 133], buffer[SEALWAX_LONGEST_LIST + 1];
    static uint16_t all_kems[16], all_pairs[16 * 32];
    static size_t key_lengths[16], pair_counts[16];
    for (size_t at = 0; at < 16; at++) {
        ids[at] = (uint8_t)at;
        all_kems[at] = 0x0012;
        key_lengths[at] = 133;
        pair_counts[at] = 32;
    }
    for (size_t at = 0; at < 16 * 32; at++) {
        all_pairs[at] = 1;
    }
    memset(buffer, 0xa5, sizeof buffer);
    sealwax_write_result result = sealwax_write(ids, 16, all_kems, 16, key_lengths, 16, keys, sizeof keys, pair_counts, 16, all_pairs,
                                                16 * 32, buffer, sizeof buffer);
    EXPECT(result.outcome.number == 0 && result.length == SEALWAX_LONGEST_LIST && buffer[SEALWAX_LONGEST_LIST] == 0xa5);
    EXPECT(sealwax_check(buffer, SEALWAX_LONGEST_LIST).configurations == 16);
    EXPECT(sealwax_setup(&gateway, buffer, SEALWAX_LONGEST_LIST, 1).keys == SEALWAX_MOST_KEYS);
    ids[15] = 0;
    result = sealwax_write(ids, 16, all_kems, 16, key_lengths, 16, keys, sizeof keys, pair_counts, 16, all_pairs, 16 * 32, buffer,
                           sizeof buffer);
    EXPECT(is_at(result.outcome, SEALWAX_DUPLICATE_KEY_ID, 15 * 204 + 2));
}

/* Nenc as a head takes it, and Npk as a list does, by trying every length; 0 for an unknown KEM. */
static size_t enc_length(uint16_t kem, const uint8_t *bytes, size_t most) {
    static uint8_t head[4096];
    uint8_t info[SEALWAX_INFO_LENGTH];
    for (size_t length = 0; length <= most; length++) {
        uint8_t number = sealwax_head(7, kem, 1, 3, bytes, length, head, sizeof head, info, sizeof info).outcome.number;
        if (number != SEALWAX_WRONG_LENGTH) {
            EXPECT(number == SEALWAX_ACCEPTED || number == SEALWAX_UNKNOWN_KEM);
            return number == SEALWAX_ACCEPTED ? length : 0;
        }
    }
    EXPECT(!"some enc is taken");
    return 0;
}

static size_t key_length(uint16_t kem, const uint8_t *bytes, size_t most) {
    static uint8_t buffer[4096];
    const uint8_t id = 7;
    const uint16_t pair[2] = {1, 3};
    const size_t numbers = 2;
    for (size_t length = 0; length <= most; length++) {
        uint8_t number =
            sealwax_write(&id, 1, &kem, 1, &length, 1, bytes, length, &numbers, 1, pair, 2, buffer, sizeof buffer).outcome.number;
        if (number != SEALWAX_LENGTH_MISMATCH) {
            EXPECT(number == SEALWAX_ACCEPTED || number == SEALWAX_UNKNOWN_KEM);
            return number == SEALWAX_ACCEPTED ? length : 0;
        }
    }
    EXPECT(!"some key is taken");
    return 0;
}

static size_t larger(size_t a, size_t b) { return a < b ? b : a; }

/* 02, A4: the library has its sizes from one table. The header's longest lengths are those of this table, over every KEM and AEAD number. */
static void longest_lengths(void) {
    static const uint8_t bytes[2048];
    size_t longest_enc = 0, longest_key = 0, longest_nonce = 0;
    for (uint32_t number = 0; number <= UINT16_MAX; number++) {
        longest_enc = larger(longest_enc, enc_length((uint16_t)number, bytes, sizeof bytes));
        longest_key = larger(longest_key, key_length((uint16_t)number, bytes, sizeof bytes));
        uint8_t context[SEALWAX_EXPORTER_CONTEXT_LENGTH];
        sealwax_exporter_result exporter = sealwax_exporter((uint16_t)number, context, sizeof context);
        if (exporter.outcome.number == SEALWAX_ACCEPTED) {
            longest_nonce = larger(longest_nonce, exporter.secret_length); /* the secret is as long as the response nonce */
        }
    }
    EXPECT(SEALWAX_LONGEST_HEAD == 7 + longest_enc);
    EXPECT(SEALWAX_LONGEST_SALT == longest_enc + longest_nonce);
    EXPECT(SEALWAX_LONGEST_LIST == 16 * (2 + 5 + longest_key + 16 * 4));
    EXPECT(SEALWAX_LONGEST_RESPONSE == longest_nonce + SEALWAX_LONGEST_PLAIN + 16);
}

/* 02, A1: a configuration of an unknown KEM, here of 3 bytes and with the key id of the one that is read, is skipped. */
static void skipped(void) {
    static const uint8_t unknown[5] = {0, 3, 7, 0, 0x30};
    uint8_t both[48];
    memcpy(both, unknown, 5);
    memcpy(both + 5, list, 43);
    sealwax_check_result check = sealwax_check(both, sizeof both);
    EXPECT(check.outcome.number == 0 && check.configurations == 1 && check.skipped == 1);
    sealwax_key_result key = sealwax_key(both, sizeof both, 7);
    EXPECT(key.outcome.number == 0 && key.start == 10 && key.end == 42);
    EXPECT(sealwax_setup(&gateway, both, sizeof both, 1).keys == 1);
    EXPECT(admit(55).ticket == 1);
    /* all are skipped: a gateway without keys */
    check = sealwax_check(unknown, 5);
    EXPECT(check.outcome.number == 0 && check.configurations == 0 && check.skipped == 1);
    sealwax_setup_result answer = sealwax_setup(&gateway, unknown, 5, 1000);
    EXPECT(answer.outcome.number == 0 && answer.keys == 0);
    EXPECT(sealwax_report(&gateway).key_count == 0 && admit(55).outcome.number == SEALWAX_NO_SUCH_KEY);
    EXPECT(sealwax_key(unknown, 5, 7).outcome.number == SEALWAX_NO_SUCH_KEY);
    uint16_t kems[2] = {0x0030, 0x0020}, pairs[2] = {1, 3};
    EXPECT(sealwax_choose(unknown, 5, kems, 2, pairs, 2).outcome.number == SEALWAX_NO_USABLE_CONFIGURATION);
    /* the longest list that can be good: sixteen of the largest length; one that is skipped is refused in the seventeenth place */
    static uint8_t longest[SEALWAX_LONGEST_LIST_READ + 5];
    for (size_t at = 0; at < sizeof longest - 5; at += 65537) {
        longest[at] = longest[at + 1] = 0xff;
    }
    check = sealwax_check(longest, SEALWAX_LONGEST_LIST_READ);
    EXPECT(check.outcome.number == 0 && check.configurations == 0 && check.skipped == 16);
    memcpy(longest + SEALWAX_LONGEST_LIST_READ, unknown, 5);
    check = sealwax_check(longest, sizeof longest);
    EXPECT(is_at(check.outcome, SEALWAX_TOO_MANY_CONFIGURATIONS, SEALWAX_LONGEST_LIST_READ) && check.skipped == 0);
}

/* Whether a part of a message is this text. */
static int is_text(const uint8_t *message, sealwax_span span, const char *text) {
    return span.end - span.start == strlen(text) && memcmp(message + span.start, text, strlen(text)) == 0;
}

/* Walks a section by the reader alone, without a copy: its names and values are these, by turns, and it ends behind the last. */
static void walked(const uint8_t *message, sealwax_section section, const char *const *words) {
    size_t place = section.span.start, fields = 0;
    while (place < section.span.end && words[2 * fields] != NULL) {
        sealwax_next_field_result field = sealwax_next_field(message, section.span.end, place);
        EXPECT(field.outcome.number == 0 && !field.outcome.has_place && field.next == field.value.end && place < field.next);
        EXPECT(is_text(message, field.name, words[2 * fields]) && is_text(message, field.value, words[2 * fields + 1]));
        place = field.next;
        fields++;
    }
    EXPECT(place == section.span.end && fields == section.fields && words[2 * fields] == NULL);
    EXPECT(is_at(sealwax_next_field(message, section.span.end, place).outcome, SEALWAX_BAD_MESSAGE, place));
}

/* Three header fields, the last without a value; a trailer field whose lengths have 2 and 8 bytes; padding. */
static const uint8_t inside[] = "\x00\x04POST\x05https\x01" "a\x01/\x16\x06" "accept\x03*/*\x01" "b\x05" "c d e\x01x\x00\x02no"
                                "\x0c\x40\x01t\xc0\x00\x00\x00\x00\x00\x00\x01v\x00\x00\x00";
#define INSIDE_LENGTH (sizeof inside - 1)

/* 02, A3: RFC 9458, Appendix A. What is missing at the end is empty there. */
static void appendix_a(void) {
    static const uint8_t message[25] = "\x00\x03GET\x05https\x0b" "example.com\x01/";
    sealwax_request_result read = sealwax_request(message, sizeof message);
    EXPECT(read.outcome.number == 0 && !read.outcome.has_place && read.outcome.status == 0);
    EXPECT(is_text(message, read.method, "GET") && is_text(message, read.scheme, "https"));
    EXPECT(is_text(message, read.authority, "example.com") && is_text(message, read.path, "/"));
    EXPECT(read.headers.span.start == 25 && read.headers.span.end == 25 && read.headers.fields == 0);
    EXPECT(read.content.start == 25 && read.content.end == 25 && read.padding.start == 25 && read.padding.end == 25);
    EXPECT(read.trailers.span.start == 25 && read.trailers.span.end == 25 && read.trailers.fields == 0);
}

/* 02, A3: each part, by name and by number, and the fields of both sections. */
static void messages(void) {
    sealwax_request_result read = sealwax_request(inside, INSIDE_LENGTH);
    EXPECT(read.outcome.number == 0 && is_text(inside, read.method, "POST") && is_text(inside, read.content, "no"));
    const char *const headers[] = {"accept", "*/*", "b", "c d e", "x", "", NULL}, *const trailers[] = {"t", "v", NULL};
    walked(inside, read.headers, headers);
    walked(inside, read.trailers, trailers);
    EXPECT(read.headers.fields == 3 && read.trailers.fields == 1 && read.padding.end - read.padding.start == 3);
    const sealwax_span spans[] = {read.method,       read.scheme,  read.authority,     read.path,
                                  read.headers.span, read.content, read.trailers.span, read.padding};
    for (unsigned number = 0; number <= UINT8_MAX; number++) {
        sealwax_request_part_result part = sealwax_request_part(inside, INSIDE_LENGTH, (uint8_t)number);
        size_t start = number <= SEALWAX_PADDING ? spans[number].start : 0, end = number <= SEALWAX_PADDING ? spans[number].end : 0;
        EXPECT(part.outcome.number == 0 && part.span.start == start && part.span.end == end);
    }
    EXPECT(is_text(inside, sealwax_request_part(inside, INSIDE_LENGTH, SEALWAX_PATH).span, "/"));
}

/* 02, A3: each kind of fault, by the check and by the part; nothing else is answered then. */
static void bad_message(const uint8_t *message, size_t length, size_t place) {
    sealwax_request_result read = sealwax_request(message, length);
    EXPECT(is_at(read.outcome, SEALWAX_BAD_MESSAGE, place) && read.outcome.status == 0 && read.outcome.problem == SEALWAX_NO_PROBLEM);
    EXPECT(read.method.end == 0 && read.headers.span.end == 0 && read.headers.fields == 0 && read.padding.end == 0);
    sealwax_request_part_result part = sealwax_request_part(message, length, SEALWAX_METHOD);
    EXPECT(is_at(part.outcome, SEALWAX_BAD_MESSAGE, place) && part.span.start == 0 && part.span.end == 0);
}
#define BAD_MESSAGE(text, place) bad_message((const uint8_t *)(text), sizeof(text) - 1, place)

static void bad_messages(void) {
    EXPECT(is_at(sealwax_request(NULL, 0).outcome, SEALWAX_BAD_MESSAGE, 0));
    EXPECT(is_at(sealwax_request_part(NULL, 0, SEALWAX_PADDING).outcome, SEALWAX_BAD_MESSAGE, 0));
    EXPECT(is_at(sealwax_next_field(NULL, 0, 0).outcome, SEALWAX_BAD_MESSAGE, 0));
    BAD_MESSAGE("\x01\0\0\0\0", 0);                                            /* another framing */
    BAD_MESSAGE("\x40\x02\0\0\0\0", 0);                                        /* the same in 2 bytes */
    BAD_MESSAGE("\0\x80\0", 3);                                                /* an integer that is cut */
    BAD_MESSAGE("\0\x03GE", 4);                                                /* a part that is cut */
    BAD_MESSAGE("\0\0\0\xff\xff\xff\xff\xff\xff\xff\xff", 11);                 /* 2^62 - 1 bytes are missing */
    BAD_MESSAGE("\0\0\0\0\0\x04\x01" "A\0", 9);                                /* a section that is cut, before its fields are read */
    BAD_MESSAGE("\0\0\0\0\0\x02\0\0", 6);                                      /* an empty name */
    BAD_MESSAGE("\0\0\0\0\0\x03\x03" "a\0\0\0", 6);                            /* a name past the section's end */
    BAD_MESSAGE("\0\0\0\0\0\x03\x01" "a\x01" "b", 8);                          /* a value past the section's end */
    BAD_MESSAGE("\0\0\0\0\0\x0a\x01" "a\xff\xff\xff\xff\xff\xff\xff\xff", 8);  /* a value of 2^62 - 1 bytes */
    BAD_MESSAGE("\0\0\0\0\0\x04\x02" "aB\0", 8);                               /* a name's byte */
    BAD_MESSAGE("\0\0\0\0\0\x05\x01" "a\x02" "b\n", 10);                       /* a value's byte */
    BAD_MESSAGE("\0\0\0\0\0\x05\x01" "a\x02 b", 9);                            /* a blank at a value's start */
    BAD_MESSAGE("\0\0\0\0\0\x06\x01" "a\x03" "b\t ", 11);                      /* of blanks at its end, the last */
    BAD_MESSAGE("\0\0\0\0\0\0\x02" "c", 8);                                    /* content that is cut */
    BAD_MESSAGE("\0\0\0\0\0\0\0\x03\x01" "A\0", 9);                            /* a trailer's name */
    BAD_MESSAGE("\0\0\0\0\0\0\0\0\0\x20", 9);                                  /* padding */
    /* the reader by itself: any bytes and any place */
    EXPECT(is_at(sealwax_next_field(inside, INSIDE_LENGTH, SIZE_MAX).outcome, SEALWAX_BAD_MESSAGE, SIZE_MAX));
    sealwax_next_field_result field = sealwax_next_field((const uint8_t *)"\0\x05" "b", 3, 0);
    EXPECT(is_at(field.outcome, SEALWAX_BAD_MESSAGE, 1) && field.next == 0 && field.name.end == 0);
}

int main(void) {
    setups();
    damaged_lists();
    placed_or_not();
    skipped();
    admissions();
    steps();
    searches();
    memory();
    clients();
    longest_list();
    longest_lengths();
    appendix_a();
    messages();
    bad_messages();
    if (failures == 0) {
        puts("hosts/c: all hold");
    }
    return failures != 0;
}
