/*
 * A raw Ethernet socket for HomePlug frames (ethertype 88E1), and a log of what goes over it; Linux alone. For the programs
 * that put a station or a car on a network interface; they define _GNU_SOURCE first.
 */
#ifndef LINE_H
#define LINE_H

#include "car_frames.h"
#include "lahzavar.h"

#include <arpa/inet.h>
#include <linux/if_packet.h>
#include <net/if.h>
#include <poll.h>
#include <signal.h>
#include <stdint.h>
#include <stdio.h>
#include <stdlib.h>
#include <string.h>
#include <sys/ioctl.h>
#include <sys/socket.h>
#include <time.h>
#include <unistd.h>

#define HOMEPLUG 0x88E1
#define LINE_MOST 1514

static int line = -1;
static uint32_t line_started;

/* A free-running millisecond clock that wraps at 2^32. */
static inline uint32_t line_clock(void)
{
    struct timespec now;
    clock_gettime(CLOCK_MONOTONIC, &now);
    return (uint32_t)((uint64_t)now.tv_sec * 1000u + (uint64_t)now.tv_nsec / 1000000u);
}

/* Opens the interface and gives its address; says on standard error what went wrong, and leaves with 2. */
static inline void line_open(const char *interface, uint8_t own[6])
{
    struct ifreq request;
    struct sockaddr_ll place;
    memset(&request, 0, sizeof request);
    memset(&place, 0, sizeof place);
    snprintf(request.ifr_name, sizeof request.ifr_name, "%s", interface);
    place.sll_family = AF_PACKET;
    place.sll_protocol = htons(HOMEPLUG);
    place.sll_ifindex = (int)if_nametoindex(interface);
    line = socket(AF_PACKET, SOCK_RAW, htons(HOMEPLUG));
    if (line < 0 || ioctl(line, SIOCGIFHWADDR, &request) != 0 || bind(line, (struct sockaddr *)&place, sizeof place) != 0) {
        perror(interface);
        exit(2);
    }
    memcpy(own, request.ifr_hwaddr.sa_data, 6);
    line_started = line_clock();
}

/* The next frame that another one sent, within so many milliseconds; 0 where none comes. */
static inline size_t line_receive(uint8_t frame[LINE_MOST], uint32_t wait)
{
    uint32_t start = line_clock(), gone = 0;
    for (; gone <= wait; gone = line_clock() - start) {
        struct pollfd ready = {line, POLLIN, 0};
        struct sockaddr_ll from;
        socklen_t size = sizeof from;
        ssize_t length;
        if (poll(&ready, 1, (int)(wait - gone)) <= 0) {
            return 0;
        }
        length = recvfrom(line, frame, LINE_MOST, 0, (struct sockaddr *)&from, &size);
        if (length > 0 && from.sll_pkttype != PACKET_OUTGOING) {
            return (size_t)length;
        }
    }
    return 0;
}

/* Hands over each frame with a source, and a tick every so many milliseconds, for ever. */
static inline void line_run(void (*receive)(const uint8_t *frame, size_t length), void (*tick)(void), uint32_t every)
{
    uint8_t frame[LINE_MOST];
    uint32_t last = line_clock();
    signal(SIGINT, SIG_DFL); /* a shell has background programs ignore it */
    for (;;) {
        uint32_t gone = line_clock() - last;
        size_t length = gone >= every ? 0 : line_receive(frame, every - gone);
        if (length >= 12) {
            receive(frame, length);
        } else if (length == 0) {
            last = line_clock();
            tick();
        }
        fflush(stdout);
    }
}

static inline const char *message_name(unsigned type)
{
    switch (type) {
    case CM_SET_KEY_REQ:
        return "CM_SET_KEY.REQ";
    case CM_SET_KEY_CNF:
        return "CM_SET_KEY.CNF";
    case CM_AMP_MAP_REQ:
        return "CM_AMP_MAP.REQ";
    case CM_AMP_MAP_CNF:
        return "CM_AMP_MAP.CNF";
    case CM_SLAC_PARM_REQ:
        return "CM_SLAC_PARM.REQ";
    case CM_SLAC_PARM_CNF:
        return "CM_SLAC_PARM.CNF";
    case CM_START_ATTEN_CHAR_IND:
        return "CM_START_ATTEN_CHAR.IND";
    case CM_ATTEN_CHAR_IND:
        return "CM_ATTEN_CHAR.IND";
    case CM_ATTEN_CHAR_RSP:
        return "CM_ATTEN_CHAR.RSP";
    case CM_MNBC_SOUND_IND:
        return "CM_MNBC_SOUND.IND";
    case CM_VALIDATE_REQ:
        return "CM_VALIDATE.REQ";
    case CM_VALIDATE_CNF:
        return "CM_VALIDATE.CNF";
    case CM_SLAC_MATCH_REQ:
        return "CM_SLAC_MATCH.REQ";
    case CM_SLAC_MATCH_CNF:
        return "CM_SLAC_MATCH.CNF";
    case CM_ATTEN_PROFILE_IND:
        return "CM_ATTEN_PROFILE.IND";
    default:
        return "another message";
    }
}

static inline const char *indication_text(uint32_t indication)
{
    switch (indication) {
    case LAHZAVAR_NO_LINK:
        return "no link";
    case LAHZAVAR_LINK_ESTABLISHED:
        return "link established";
    case LAHZAVAR_FOUND:
        return "found";
    case LAHZAVAR_POTENTIALLY_FOUND:
        return "potentially found";
    case LAHZAVAR_NOT_FOUND:
        return "not found";
    case LAHZAVAR_KEY_GIVEN:
        return "key given";
    default:
        return "no indication";
    }
}

/* Begins a line of the log: the time since the start, and words. */
static inline void log_begin(const char *words)
{
    uint32_t time = line_clock() - line_started;
    printf("%6u.%03u  %s", (unsigned)(time / 1000), (unsigned)(time % 1000), words);
}

static inline void log_line(const char *words)
{
    log_begin(words);
    printf("\n");
}

/* Octets with colons between them. */
static inline void log_octets(const uint8_t *octets, size_t count)
{
    size_t at;
    for (at = 0; at < count; at++) {
        printf(at == 0 ? "%02X" : ":%02X", octets[at]);
    }
}

/* Begins a line on a frame that came, with its source. */
static inline void log_received(const uint8_t *frame, size_t length)
{
    log_begin(message_name(frame_type(frame, length)));
    printf(" from ");
    log_octets(frame + 6, 6);
}

/* Ends it with the answer to the frame. */
static inline void log_answer(struct lahzavar_answer answer)
{
    if (answer.refusal == LAHZAVAR_ACCEPTED) {
        printf(": accepted\n");
    } else {
        printf(": refused with %u: %s\n", (unsigned)answer.refusal, lahzavar_refusal_text(answer.refusal));
    }
}

/* What a CM_VALIDATE.CNF says. */
static inline void log_validation(const uint8_t *frame)
{
    static const char *const results[] = {"not ready", "ready", "success", "failure", "not required"};
    unsigned toggles = frame[FRAME_HEAD + 1], result = frame[FRAME_HEAD + 2];
    log_begin("the validation: ");
    printf("%s, toggles: %u\n", result < 5 ? results[result] : "no result", toggles);
}

static inline void line_send(const uint8_t *frame, size_t length)
{
    if (send(line, frame, length, 0) != (ssize_t)length) {
        perror("send");
    }
    log_begin(message_name(frame_type(frame, length)));
    printf(" to ");
    log_octets(frame, 6);
    printf("\n");
}

/*
 * A stand-in for a modem: answers a CM_SET_KEY.REQ by a CM_SET_KEY.CNF in the layout of HomePlug Green PHY, which repeats
 * the nonce, PID and PRN of the request. Gives the request's payload, NID at 14-20 and NewKey at 22-37 (Table A.8), or NULL
 * where it is too short.
 */
static inline const uint8_t *confirm_key(const uint8_t *request, size_t length, const uint8_t modem[6], unsigned result)
{
    uint8_t reply[FRAME_MOST];
    const uint8_t *asked = request + FRAME_HEAD;
    size_t size = write_head(reply, request + 6, modem, CM_SET_KEY_CNF, 14);
    log_received(request, length);
    if (length < FRAME_HEAD + 38) {
        printf(": too short\n");
        return NULL;
    }
    printf("\n");
    reply[FRAME_HEAD] = (uint8_t)result;
    memcpy(reply + FRAME_HEAD + 5, asked + 1, 4);
    memcpy(reply + FRAME_HEAD + 9, asked + 9, 4);
    line_send(reply, size);
    return asked;
}

/* Octets from hex digits, with or without colons; 0 where they are not so many. */
static inline int read_octets(const char *text, uint8_t *octets, size_t count)
{
    size_t at;
    for (at = 0; at < count; at++) {
        unsigned octet;
        int used = 0;
        if (sscanf(text, "%2x%n", &octet, &used) != 1 || used != 2) {
            return 0;
        }
        octets[at] = (uint8_t)octet;
        text += text[2] == ':' ? 3 : 2;
    }
    return *text == '\0';
}

#endif
