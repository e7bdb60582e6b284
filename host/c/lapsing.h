/* Tests of a channel with timeouts allowed. */

#ifndef LAPSING_H
#define LAPSING_H

#include "calls.h"
#include "datagrams.h"
#include "route.h"

#include <string.h>

/* A packet that comes late is accepted and not delivered: its timeout receipt is written, and the next one can come. It
 * is not answered. */
static void test_lapsing(void)
{
    static const uint8_t receipt[64] = {ROUTE_RECORD_TIMEOUT_RECEIPT, 0, 0, 0, 7, 0, 0, 0, 1};
    uint8_t receive[ROUTE_RECEIVE_LENGTH], write[ROUTE_WRITE_LENGTH];
    fresh();
    make_late_receive(receive, 1);
    EXPECT(call(receive, sizeof receive) == ROUTE_TIMEOUT_PASSED); /* on an ordered channel */
    fresh_with(ROUTE_ORDERED_ALLOW_TIMEOUT);
    EXPECT(store[67] == ROUTE_ORDERED_ALLOW_TIMEOUT);
    EXPECT(call(receive, sizeof receive) == ROUTE_ACCEPTED && size == ROUTE_LAPSED_LENGTH);
    EXPECT(emitted_packet(ROUTE_LAPSED, receive + 46));
    EXPECT(all_are(output + ROUTE_LAPSED_LENGTH, OUTPUT - ROUTE_LAPSED_LENGTH, FILL));
    EXPECT(store[66] == ROUTE_STATE_OPEN && store[88] == 2 && memcmp(store + 1088, receipt, 64) == 0);
    EXPECT(call(receive, sizeof receive) == ROUTE_OUT_OF_ORDER);
    make_write(write, 1);
    EXPECT(call(write, sizeof write) == ROUTE_NOT_RECEIVED);
    make_receive(receive, 2);
    EXPECT(call(receive, sizeof receive) == ROUTE_ACCEPTED && emitted_packet(ROUTE_DELIVERED, receive + 46));
    EXPECT(store[88] == 3 && all_are(store + 1152, 64, 0));
    make_write(write, 2);
    EXPECT(call(write, sizeof write) == ROUTE_ACCEPTED && size == ROUTE_WRITTEN_LENGTH);
    EXPECT(store[1088] == ROUTE_RECORD_ACKNOWLEDGEMENT && memcmp(store + 1152, receipt, 64) == 0);
    make_late_receive(receive, 3);
    EXPECT(call(receive, sizeof receive) == ROUTE_NO_FREE_RECORD);
}

/* A packet that lapsed is timed out in its turn, and the channel stays open. The next one is timed out on close, since
 * the other end closed before it came. */
static void test_time_out_of_lapsed(void)
{
    uint8_t send[ROUTE_SEND_LENGTH], time_out[ROUTE_TIME_OUT_LENGTH], on_close[ROUTE_TIME_OUT_ON_CLOSE_LENGTH];
    fresh_with(ROUTE_ORDERED_ALLOW_TIMEOUT);
    make_send(send, 60);
    EXPECT(call(send, sizeof send) == ROUTE_ACCEPTED);
    EXPECT(call(send, sizeof send) == ROUTE_ACCEPTED);
    make_time_out(time_out, 1, 60); /* with the other end's next receive */
    EXPECT(call(time_out, sizeof time_out) == ROUTE_VERDICT_CLAIM);
    put_lapsed(time_out + 114, 2, 60);
    EXPECT(call(time_out, sizeof time_out) == ROUTE_VERDICT_SEQUENCE);
    put(time_out + 46, 2, 8);
    EXPECT(call(time_out, sizeof time_out) == ROUTE_OUT_OF_ORDER);
    make_time_out(time_out, 1, 60);
    put_lapsed(time_out + 114, 1, 60);
    EXPECT(call(time_out, sizeof time_out) == ROUTE_ACCEPTED && emitted_packet(ROUTE_TIMED_OUT, time_out + 46));
    EXPECT(store[66] == ROUTE_STATE_OPEN && store[96] == 2 && all_are(store + 1152, 64, 0));
    make_time_out_on_close(on_close, 2, ROUTE_STATE_CLOSED, 50);
    EXPECT(call(on_close, sizeof on_close) == ROUTE_VERDICT_DIGEST); /* it shows an ordered end */
    on_close[135] = ROUTE_ORDERED_ALLOW_TIMEOUT;
    put(on_close + 220, 3, 8);
    EXPECT(call(on_close, sizeof on_close) == ROUTE_OUT_OF_ORDER);
    put(on_close + 220, 2, 8);
    EXPECT(call(on_close, sizeof on_close) == ROUTE_ACCEPTED && emitted_packet(ROUTE_TIMED_OUT, on_close + 46));
    EXPECT(store[66] == ROUTE_STATE_OPEN && store[96] == 3 && all_are(store + 1088, 128, 0));
}

#endif
