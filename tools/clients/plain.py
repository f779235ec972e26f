#!/usr/bin/env python3
"""What the ESMEs of others never do, over plain sockets: windows that are full, PDUs in pieces, wrong lengths, peers that are silent, slow or gone.

    python3 tools/clients/plain.py PORT1 PORT2 PORT3

The ports are those of three nodes at 127.0.0.1, with the accounts, routes and limits of centre.toml beside this file. It prints `ok NAME` or
`not ok NAME: SEEN` for each check, and at last `N checks, M wrong`; the exit status is 1 if any is wrong. It takes a little more than a minute, since the
second attempt of a message is due so long after the first, and 240 seconds at most.
"""
import contextlib
import signal
import sys
import time

import pdus
from checks import Checks
from plain_esme import NOT_READY, Ended, Esme, wait

# As centre.toml has them.
BIND_SECONDS, IDLE_SECONDS, WRITE_SECONDS, LINGER_SECONDS, SESSIONS = 5, 45, 5, 5, 20
PASSWORDS = {name: f"pw{name}" for name in ("plain", "many", "silent", "lost", "older", "sender", "getter", "flap")}
PLAIN, MANY, SILENT, LOST, OLDER, GETTER, FLAP = "30", "31", "32", "33", "34", "35", "36"
WINDOW = 10
MESSAGES = 200
# Messages behind one that answers nothing, and how many of them are cancelled; and the validity_period of others: five seconds.
QUEUED, CANCELLED = 1_000, 900
BRIEF = "000000000005000R"
# Messages that wait before one of another node, and how many of them go out before it at most.
BEFORE, MOST_BEFORE = 200, 60
SECONDS = 240
# A peer that never reads can send no more than this before it has to wait, whatever the buffers of the system are.
MOST_FLOODED = 64_000_000
# query_sm tells an error of at most 255; that of an attempt without an answer is 997.
NO_ANSWER = 255


def status_of(pdu):
    return "no answer" if pdu is None else f"command_id 0x{pdu.command:08x}, command_status 0x{pdu.status:02x}"


def is_answer(pdu, status):
    return pdu is not None and pdu.command != pdus.GENERIC_NACK and pdu.status == status


def is_nack(pdu, status):
    return pdu is not None and pdu.command == pdus.GENERIC_NACK and pdu.status == status


class Plain:
    """The checks, a method each, in the order of PARTS; what one of them leaves for a later one is kept here."""

    def __init__(self, ports, checks, stack):
        self.ports, self.stack, self.begun = ports, stack, time.monotonic()
        self.check = checks.check
        self.pinged, self.silent, self.main = time.monotonic(), None, self.bound("plain")

    def tend(self):
        """Says now and then that the ESMEs are there which are served at times alone, so that they are not idle."""
        if time.monotonic() < self.pinged + 5:
            return
        self.pinged = time.monotonic()
        for esme in (self.main, self.silent):
            if esme and not esme.is_ended:
                esme.ask(pdus.ENQUIRE_LINK)

    def tended(self, ask):
        """What comes of a request, by which no other ESME gets idle."""
        self.tend()
        return ask()

    def connected(self, node=1, **given):
        return self.stack.enter_context(Esme(self.ports[node - 1], **given))

    def bound(self, system_id, node=1, **given):
        """An ESME that is bound; it is closed at the end at the latest."""
        esme = self.connected(node)
        found = esme.bind(system_id, PASSWORDS[system_id], **given)
        if not is_answer(found, pdus.OK):
            raise Ended(f"the bind of {system_id} was answered: {status_of(found)}")
        return esme

    def both(self, other, test, seconds):
        """Serves what comes to the main ESME and to another one."""
        return wait([self.main, other], test, seconds)

    # What is begun at first, since it takes long.

    def silence(self):
        """Connections that say nothing: one that never binds, and one that is bound."""
        self.unbound, self.idle = self.connected(2), self.bound("plain", 2, command=pdus.BIND_TRANSMITTER)
        self.silent_since = time.monotonic()

    def vanish(self):
        lost = self.bound("lost")
        lost.status = None
        self.lost_id = self.main.submitted(LOST, b"vanish")
        self.check("attempt_of_one_that_vanishes", self.both(lost, lambda: lost.messages(b"vanish"), 10), "no deliver_sm")
        lost.vanish()
        self.lost_at = time.monotonic()

        def failed():
            return self.main.state(self.lost_id)[2:] == (pdus.ENROUTE, NO_ANSWER)
        self.check("attempt_fails_as_the_peer_vanishes", self.main.wait(failed, 10), lambda: self.main.state(self.lost_id))

    def full_account(self):
        """An ESME that answers nothing gets as many deliver_sm as its window holds, and holds up nobody else."""
        self.silent = self.bound("silent")
        self.silent.status = None
        self.silent_ids = [self.main.submitted(SILENT, b"silent %d" % number) for number in range(WINDOW + 2)]
        self.both(self.silent, lambda: len(self.silent.messages()) > WINDOW, 4)
        self.check("silent_esme_gets_a_window", len(self.silent.messages()) == WINDOW, lambda: f"{len(self.silent.messages())} deliver_sm")
        self.main.submitted(PLAIN, b"beside a silent one")
        self.check("silent_esme_holds_up_nobody", self.main.wait(lambda: self.main.messages(b"beside a silent one"), 5), "no deliver_sm")

    def queue(self):
        """Behind it no attempt begins of more messages than fill its window twice: all others can be cancelled, and expire."""
        queued = [self.tended(lambda: self.main.submitted(SILENT, b"queued %d" % number)) for number in range(QUEUED)]
        brief = [self.main.submitted(SILENT, b"brief %d" % number, validity=BRIEF) for number in range(WINDOW)]
        self.main.wait(lambda: False, 3)
        found = [self.tended(lambda: self.main.cancel(message_id)) for message_id in queued[-CANCELLED:]]
        refused = [status for status in found if status != pdus.OK]
        self.check("queued_messages_are_cancelled", not refused, lambda: f"{len(refused)} of {len(found)} refused: {sorted(set(refused))}")
        self.main.wait(lambda: False, 6)
        found = [self.main.state(message_id)[2] for message_id in brief]
        self.check("queued_messages_expire", found == [pdus.EXPIRED] * WINDOW, found)

    # Short ones.

    def at_once(self):
        """A message whose account is bound waits for no tick, whichever node took it: half of eleven come within a third of a second."""
        sender = self.bound("sender", 2, command=pdus.BIND_TRANSMITTER)
        for node, esme in ((1, self.main), (2, sender)):
            delays = sorted(self.delay_of(esme, b"at once %d from %d" % (number, node)) for number in range(11))
            self.check(f"half_come_at_once_from_node_{node}", delays[5] < 1 / 3, delays)
        sender.close()

    def delay_of(self, esme, text):
        """How many seconds a message to the main ESME takes."""
        begun = time.monotonic()
        esme.submitted(PLAIN, text)
        self.both(esme, lambda: self.main.messages(text), 5)
        return time.monotonic() - begun

    def before_bind(self):
        esme = self.connected()
        found = esme.ask(pdus.ENQUIRE_LINK)
        self.check("enquire_link_before_bind", is_answer(found, pdus.OK), status_of(found))
        found = esme.ask(pdus.SUBMIT_SM, pdus.message_body(b"early", destination=PLAIN))
        self.check("submit_before_bind", is_answer(found, pdus.INVALID_BIND_STATE), status_of(found))
        found = esme.ask(pdus.UNBIND)
        self.check("unbind_before_bind", is_answer(found, pdus.INVALID_BIND_STATE), status_of(found))
        found = esme.ask(0x0BAD)
        self.check("unknown_command", is_nack(found, pdus.INVALID_COMMAND), status_of(found))
        found = esme.bind("plain", PASSWORDS["plain"])
        self.check("bind_after_refusals", is_answer(found, pdus.OK), status_of(found))
        esme.close()

    def roles(self):
        for system_id, command in (("sender", pdus.BIND_RECEIVER), ("sender", pdus.BIND_TRANSCEIVER), ("getter", pdus.BIND_TRANSMITTER)):
            found = self.connected().bind(system_id, PASSWORDS[system_id], command)
            self.check(f"role_refused_to_{system_id}_{command}", is_answer(found, pdus.BIND_FAILED), status_of(found))
        sender, getter = self.bound("sender", 2, command=pdus.BIND_TRANSMITTER), self.bound("getter", 3, command=pdus.BIND_RECEIVER)
        found = getter.ask(pdus.SUBMIT_SM, pdus.message_body(b"by a receiver", destination=GETTER))
        self.check("submit_by_a_receiver", is_answer(found, pdus.INVALID_BIND_STATE), status_of(found))
        found = sender.ask(pdus.SUBMIT_SM, pdus.message_body(b"to nobody", destination=""))
        self.check("submit_to_nobody", is_answer(found, pdus.INVALID_DESTINATION), status_of(found))
        sent = sender.submitted(GETTER, b"over two nodes")
        self.check("from_node_2_to_node_3", wait([sender, getter], lambda: getter.messages(b"over two nodes"), 10), "no deliver_sm")
        getter.close()
        self.check("delivery_is_known_at_node_2", sender.wait(lambda: sender.state(sent)[2] == pdus.DELIVERED, 10), lambda: sender.state(sent))
        self.check("no_receipt_over_a_transmitter", not sender.delivered, sender.delivered)

    def window(self):
        """Ten submit_sm in one write are all taken; of many in one write those that found ten before them are refused, and the session goes on."""
        esme = self.bound("plain", 3, command=pdus.BIND_TRANSMITTER)
        body = pdus.message_body(b"in a window", destination=PLAIN, source="144")
        first = self.burst(esme, body, WINDOW)
        self.check("ten_at_once", [status for status, _ in first] == [pdus.OK] * WINDOW and len({found for _, found in first}) == WINDOW, first)
        for _ in range(5):
            many = self.burst(esme, body, 60)
            if any(status == pdus.THROTTLED for status, _ in many):
                break
        found = [status for status, _ in many]
        self.check("eleventh_is_throttled", pdus.THROTTLED in found and set(found) == {pdus.OK, pdus.THROTTLED}, found)
        self.check("ten_before_are_taken", found[:WINDOW] == [pdus.OK] * WINDOW, found)
        taken = [message_id for status, message_id in many if status == pdus.OK]
        self.check("throttled_have_no_id", len(set(taken)) == len(taken) and all(message_id is None for status, message_id in many if status != pdus.OK), many)
        self.check("taken_again_after_it", esme.submitted(PLAIN, b"in a window"), "no message_id")
        count = WINDOW + len(taken) + 1

        def all_came():
            return len(self.main.messages(b"in a window")) >= count
        self.main.wait(all_came, 30)
        self.check("taken_ones_are_delivered", len(self.main.messages(b"in a window")) >= count, lambda: (len(self.main.messages(b"in a window")), count))
        esme.unbind()

    def burst(self, esme, body, count):
        """The command_status and the message_id that each of so many submit_sm is answered, in the order of sending."""
        frames = []
        for _ in range(count):
            frames.append(esme.framed(pdus.SUBMIT_SM, body))
        last = esme.sequence
        esme.send(b"".join(frames))
        answers = [esme.answer(sequence, 10) for sequence in range(last - count + 1, last + 1)]
        return [(found and found.status, pdus.Reader(found.body).text() if found and found.status == pdus.OK else None) for found in answers]

    def pieces(self):
        """A PDU in single octets, several in one write, and one that is cut by the next write."""
        esme = self.connected()
        for octet in esme.framed(pdus.BIND_TRANSCEIVER, pdus.bind_body("plain", PASSWORDS["plain"], 0x34)):
            esme.send(bytes([octet]))
            time.sleep(0.002)
        found = esme.answer(esme.sequence)
        self.check("bind_in_single_octets", is_answer(found, pdus.OK), status_of(found))
        for octet in esme.framed(pdus.SUBMIT_SM, pdus.message_body(b"in pieces", source="144", destination=PLAIN)):
            esme.send(bytes([octet]))
        self.check("submit_in_single_octets", esme.id_of(esme.sequence), "no message_id")
        frames = b"".join(esme.framed(pdus.ENQUIRE_LINK) for _ in range(5))
        esme.send(frames[:40])
        time.sleep(0.2)
        esme.send(frames[40:])
        found = [esme.answer(sequence) for sequence in range(esme.sequence - 4, esme.sequence + 1)]
        self.check("five_in_two_writes", all(is_answer(one, pdus.OK) for one in found), [status_of(one) for one in found])
        came = self.both(esme, lambda: self.main.messages(b"in pieces") or esme.messages(b"in pieces"), 10)
        self.check("message_in_pieces_is_delivered", came, "no deliver_sm")
        found = esme.unbind()
        self.check("unbind_closes", found == pdus.OK and esme.is_closed(5), found)

    def wrong_lengths(self):
        for length in (0, 15, 8193, 0xFFFFFFFF):
            esme = self.connected()
            esme.send(length.to_bytes(4, "big") + pdus.frame(pdus.ENQUIRE_LINK, 7)[4:])
            is_closed = esme.is_closed(5)
            found = esme.nacks[0] if esme.nacks else None
            self.check(f"nack_of_length_{length}", is_nack(found, pdus.INVALID_LENGTH) and found.sequence == 0 and len(esme.nacks) == 1, status_of(found))
            self.check(f"closed_after_length_{length}", is_closed, "the connection stays open")
        esme = self.bound("plain", command=pdus.BIND_TRANSMITTER)
        found = esme.ask(pdus.SUBMIT_SM, pdus.message_body(b"cut", destination=PLAIN)[:-2])
        self.check("nack_of_a_cut_body", is_nack(found, pdus.INVALID_LENGTH), status_of(found))
        found = esme.ask(pdus.ENQUIRE_LINK)
        self.check("session_goes_on_after_a_cut_body", is_answer(found, pdus.OK), status_of(found))

    def longest(self):
        """The longest text and the most octets of optional parameters come through; one more is refused."""
        reference = bytes(range(256)) * 28
        given = self.main.submitted(PLAIN, b"x" * 254, [(pdus.USER_MESSAGE_REFERENCE, reference[:6_996])])
        came = self.main.wait(lambda: self.main.messages(b"x" * 254), 10)
        self.check("longest_message", given and came and came[0]["parameters"] == {pdus.USER_MESSAGE_REFERENCE: reference[:6_996]}, (given, bool(came)))
        found = self.main.answer(self.main.submit(PLAIN, b"x", [(pdus.USER_MESSAGE_REFERENCE, reference[:6_997])]))
        self.check("too_many_parameters", is_answer(found, 0xC0), status_of(found))
        found = self.main.answer(self.main.submit(PLAIN, b"x" * 255))
        self.check("too_long_a_text", is_answer(found, 1), status_of(found))
        payload = bytes(range(256)) * 16
        given = self.main.submitted(PLAIN, b"", [(pdus.MESSAGE_PAYLOAD, payload)])
        came = self.main.wait(lambda: self.main.messages(b""), 10)
        self.check("longest_payload", given and came and came[0]["parameters"] == {pdus.MESSAGE_PAYLOAD: payload}, (given, bool(came)))
        found = self.main.answer(self.main.submit(PLAIN, b"", [(pdus.MESSAGE_PAYLOAD, payload + b"x")]))
        self.check("too_long_a_payload", is_answer(found, 1), status_of(found))

    def older_version(self):
        """An ESME of version 3.3 gets no optional parameters; its receipts have their text."""
        esme = self.connected()
        found = esme.bind("older", PASSWORDS["older"], version=0x33)
        self.check("bind_of_version_33", is_answer(found, pdus.OK) and found.body == pdus.text("CENTRE"), status_of(found))
        sent = esme.submitted(OLDER, b"to an older one", [(pdus.USER_MESSAGE_REFERENCE, b"\0\7")])
        came = esme.wait(lambda: esme.messages(b"to an older one"), 10)
        self.check("deliver_sm_of_version_33", came and not came[0]["parameters"], came)
        receipt = esme.wait(lambda: esme.receipts(sent), 10)
        self.check("receipt_of_version_33", receipt and not receipt[0]["parameters"] and b" stat:DELIVRD err:000 " in receipt[0]["short_message"], receipt)
        esme.unbind()
        newer = self.bound("older")
        self.check("bind_of_version_34", newer.wait(lambda: True), "no answer")
        newer.submitted(OLDER, b"to a newer one", [(pdus.USER_MESSAGE_REFERENCE, b"\0\7")])
        came = newer.wait(lambda: newer.messages(b"to a newer one"), 10)
        self.check("deliver_sm_of_version_34", came and came[0]["parameters"] == {pdus.USER_MESSAGE_REFERENCE: b"\0\7"}, came)
        newer.unbind()

    def answers_of_all_kinds(self):
        """What an ESME answers decides how its message ends."""
        kinds = ((pdus.PERMANENT_ERROR, pdus.UNDELIVERABLE, 101, b"UNDELIV"), (pdus.REJECTED_BY_APPLICATION, pdus.REJECTED, 102, b"REJECTD"))
        for status, state, error, stat in kinds:
            self.main.status = status
            sent = self.main.submitted(PLAIN, b"refused")
            self.main.wait(lambda: self.main.messages(b"refused"), 10)
            self.main.status, self.main.delivered = pdus.OK, [one for one in self.main.delivered if one["short_message"] != b"refused"]
            receipt = self.main.wait(lambda: self.main.receipts(sent), 10)
            wanted = b" stat:%s err:%03d " % (stat, error)
            self.check(f"receipt_of_{stat.decode()}", receipt and wanted in receipt[0]["short_message"]
                       and receipt[0]["parameters"].get(pdus.MESSAGE_STATE) == bytes([state]), receipt)
            found = self.main.state(sent)
            self.check(f"query_of_{stat.decode()}", found[0] == pdus.OK and found[2:] == (state, error), found)
        sent = self.main.submitted(PLAIN, b"refused once")
        self.main.status = 0x64
        self.main.wait(lambda: self.main.messages(b"refused once"), 10)
        self.main.status = pdus.OK
        found = self.main.wait(lambda: (told := self.main.state(sent))[3] == 100 and told, 10)
        self.check("failed_attempt_is_told", found and found[2] == pdus.ENROUTE, lambda: self.main.state(sent))
        self.check("cancel_after_a_failure", self.main.cancel(sent) == pdus.OK, lambda: self.main.state(sent))

    def two_hundred(self):
        """So many messages by one client that keeps ten submit_sm open: each is delivered once, and has one receipt."""
        esme = self.bound("many")
        waiting, ids, throttled, begun = {}, {}, 0, time.monotonic()
        texts = [b"%d of many" % number for number in range(MESSAGES)]
        to_come = list(reversed(texts))
        while (to_come or waiting) and time.monotonic() < begun + 100:
            self.tend()
            while to_come and len(waiting) < WINDOW:
                sent = to_come.pop()
                waiting[esme.submit(MANY, sent)] = sent
            esme.wait(lambda: any(sequence in esme.answers for sequence in waiting), 10)
            for sequence in [one for one in waiting if one in esme.answers]:
                sent, found = waiting.pop(sequence), esme.answers.pop(sequence)
                if found.status == pdus.OK:
                    ids[pdus.Reader(found.body).text()] = sent
                else:
                    throttled += 1
        self.check("two_hundred_are_taken", len(ids) == MESSAGES and not throttled, (len(ids), throttled))

        def all_came():
            self.tend()
            return len(esme.messages()) >= MESSAGES and len(esme.receipts()) >= len(ids)
        esme.wait(all_came, 60)
        # Whatever came twice would come soon.
        esme.wait(lambda: False, 2)
        came = sorted(one["short_message"] for one in esme.messages())
        self.check("two_hundred_are_delivered_once", came == sorted(texts), lambda: (len(came), len(set(came))))
        told = {message_id: [one["parameters"].get(pdus.MESSAGE_STATE) for one in esme.receipts(message_id)] for message_id in ids}
        others = [one for one in told.items() if one[1] != [bytes([pdus.DELIVERED])]]
        self.check("two_hundred_receipts_once", told and not others, others[:5])
        named = all(one["parameters"].get(pdus.RECEIPTED_MESSAGE_ID) == pdus.text(one["short_message"][3:13]) for one in esme.receipts())
        self.check("receipts_name_their_message", named, lambda: esme.receipts()[:1])
        print(f"   200 messages in {time.monotonic() - begun:.1f} s", flush=True)
        esme.unbind()

    def two_sessions(self):
        """What waits for a session that answers nothing goes out over another one of its account, as soon as that is bound; and the first then answers, too."""
        slow = self.bound("many")
        slow.status = None
        texts = [b"%d of two" % number for number in range(WINDOW + 5)]
        for text in texts:
            self.main.submitted(MANY, text, registered=0)
        self.both(slow, lambda: len(slow.messages()) >= WINDOW, 10)
        self.main.wait(lambda: False, 2)
        quick = self.bound("many")
        wait([self.main, slow, quick], lambda: len(quick.messages()) >= 5, 3)
        self.check("what_waits_goes_to_another_session", len(quick.messages()) == 5, lambda: (len(slow.messages()), len(quick.messages())))
        for one in slow.messages():
            slow.send(pdus.frame(pdus.DELIVER_SM | pdus.RESPONSE, one["sequence"], b"\0"))
        wait([self.main, slow, quick], lambda: False, 2)
        came = sorted(one["short_message"] for one in slow.messages() + quick.messages())
        self.check("each_comes_over_one_session", came == sorted(texts), came)
        slow.unbind()
        quick.unbind()

    def flaps(self):
        """An attempt that waits for a place outlasts a session that goes and comes again; it fails once none has come for long enough."""
        first = self.bound("flap")
        first.status = None
        ids = {text: self.main.submitted(FLAP, text, registered=0) for text in (b"%d of a flap" % number for number in range(WINDOW + 5))}
        self.both(first, lambda: len(first.messages()) >= WINDOW, 5)
        self.both(first, lambda: False, 2)
        first.close()
        self.main.wait(lambda: False, LINGER_SECONDS - 2)
        waiting = set(ids) - {one["short_message"] for one in first.messages()}
        found = [self.main.state(ids[text])[2:] for text in waiting]
        self.check("attempts_outlast_a_flap", found == [(pdus.ENROUTE, 0)] * 5, found)
        second = self.bound("flap")
        self.both(second, lambda: len(second.messages()) >= 5, 3)
        came = {one["short_message"] for one in second.messages()}
        self.check("they_go_out_behind_it", came == waiting, lambda: (sorted(came), sorted(waiting)))
        second.status = None
        later = [self.main.submitted(FLAP, b"%d behind a flap" % number, registered=0) for number in range(WINDOW + 5)]
        self.both(second, lambda: len(second.messages()) >= WINDOW + 5, 5)
        self.both(second, lambda: False, 2)
        second.close()
        self.main.wait(lambda: False, LINGER_SECONDS + 3)
        found = [self.main.state(message_id)[2:] for message_id in later]
        self.check("attempts_fail_if_nobody_comes", found == [(pdus.ENROUTE, NO_ANSWER)] * (WINDOW + 5), found)

    def fair(self):
        """A message of another node does not wait for all that wait for its account before it."""
        slow, sender = self.bound("flap"), self.bound("sender", 3, command=pdus.BIND_TRANSMITTER)
        slow.status = None
        for number in range(BEFORE):
            self.tended(lambda: self.main.submitted(FLAP, b"%d before" % number, registered=0))
        sender.submitted(FLAP, b"of another node", registered=0)
        answered = 0
        while answered < MOST_BEFORE and not slow.messages(b"of another node"):
            if not wait([self.main, slow, sender], lambda: len(slow.messages()) > answered, 5):
                break
            for one in slow.messages()[answered:]:
                slow.send(pdus.frame(pdus.DELIVER_SM | pdus.RESPONSE, one["sequence"], b"\0"))
                answered += 1
        self.check("another_node_need_not_wait_for_all_before", slow.messages(b"of another node"), f"{answered} came")
        slow.unbind()
        sender.unbind()

    def never_reads(self):
        """A peer that asks without an end and reads nothing has to wait in the end; the node serves others meanwhile, and ends it."""
        flooder = self.connected(3, receive_buffer=4096)
        other = self.bound("plain", 3, command=pdus.BIND_TRANSMITTER)
        found = flooder.bind("silent", PASSWORDS["silent"], pdus.BIND_TRANSMITTER)
        self.check("bind_of_one_that_never_reads", is_answer(found, pdus.OK), status_of(found))
        sent, is_ended = self.flood(flooder)
        self.check("flood_is_bounded", sent < MOST_FLOODED, f"{sent} octets were taken")
        begun = time.monotonic()
        found = other.ask(pdus.ENQUIRE_LINK, seconds=5)
        self.check("others_are_served_in_a_flood", is_answer(found, pdus.OK) and time.monotonic() - begun < 2, (status_of(found), time.monotonic() - begun))
        self.check("others_submit_in_a_flood", other.submitted(PLAIN, b"in a flood"), "no message_id")
        self.check("others_get_theirs_in_a_flood", self.both(other, lambda: self.main.messages(b"in a flood"), 10), "no deliver_sm")
        self.check("one_that_never_reads_is_ended", is_ended or self.is_cut(flooder, WRITE_SECONDS + 55), "it is still connected")

    def flood(self, esme):
        """How many octets could be sent without a read, and whether the connection ended meanwhile."""
        octets, sent, last = pdus.frame(pdus.ENQUIRE_LINK, 1) * 1_000, 0, time.monotonic()
        esme.socket.settimeout(0)
        while sent < MOST_FLOODED and time.monotonic() < last + 1.5:
            try:
                # What was cut goes on where it was cut.
                sent, last = sent + esme.socket.send(octets[sent % len(octets):]), time.monotonic()
            except NOT_READY:
                time.sleep(0.01)
            except OSError:
                return sent, True
        return sent, False

    def is_cut(self, esme, seconds):
        """Whether the connection ends, without reading what came before."""
        end = time.monotonic() + seconds
        while time.monotonic() < end:
            self.tend()
            try:
                esme.socket.send(b"\0")
            except NOT_READY:
                pass
            except OSError:
                return True
            time.sleep(0.2)
        return False

    def places(self):
        """A node has so many sessions; a further connection is closed, and has a place once another one has left."""
        kept = []
        for _ in range(SESSIONS + 1):
            esme = self.connected(2)
            kept.append(esme)
            try:
                if esme.ask(pdus.ENQUIRE_LINK, seconds=5) is None:
                    break
            except (Ended, OSError):
                break
        # The two silent connections are at this node, if they are there still.
        self.check("places_of_a_node", SESSIONS - 2 <= len(kept) - 1 <= SESSIONS, f"{len(kept) - 1} connections were served")
        for esme in kept[:-2]:
            esme.close()

        def is_served():
            with contextlib.suppress(Ended, OSError):
                return self.connected(2).ask(pdus.ENQUIRE_LINK, seconds=2)
        self.check("a_place_is_free_again", wait([], is_served, 5), "the connection is closed")
        for esme in kept:
            esme.close()

    # The ends of what was begun at first.

    def silence_ends(self):
        left = BIND_SECONDS + 10 - (time.monotonic() - self.silent_since)
        self.check("one_that_never_binds_is_ended", self.unbound.is_closed(max(1, left)), "it is still connected")
        self.main.wait(lambda: time.monotonic() > self.silent_since + IDLE_SECONDS + 3, IDLE_SECONDS + 3)
        self.check("one_that_is_idle_is_ended", self.idle.is_closed(10), "it is still connected")

    def full_account_goes_on(self):
        """After 30 seconds without an answer the open attempts have failed, and those that waited for room go out."""
        def came():
            return {one["short_message"] for one in self.silent.messages() if one["short_message"].startswith(b"silent ")}
        self.both(self.silent, lambda: len(came()) >= WINDOW + 2, 40)
        self.check("room_after_30_seconds", len(came()) == WINDOW + 2, lambda: sorted(came()))
        first = next(message_id for number, message_id in enumerate(self.silent_ids) if self.silent.messages()[0]["short_message"] == b"silent %d" % number)
        found = self.main.state(first)
        self.check("silence_is_a_failure", found[2:] == (pdus.ENROUTE, NO_ANSWER), found)
        self.silent.close()

    def vanished_one_returns(self):
        """The message is attempted again a minute after the failure, at whatever node its account is bound then."""
        lost = self.bound("lost", 2)
        self.both(lost, lambda: lost.messages(b"vanish"), max(20, self.lost_at + 90 - time.monotonic()))
        self.check("delivered_at_another_bind", len(lost.messages(b"vanish")) == 1, lost.delivered)
        self.check("not_before_a_minute", time.monotonic() >= self.lost_at + 59, time.monotonic() - self.lost_at)
        receipt = self.both(lost, lambda: self.main.receipts(self.lost_id), 10)
        self.check("receipt_after_the_second_attempt", receipt and b" stat:DELIVRD err:000 " in receipt[0]["short_message"], receipt)
        found = self.main.state(self.lost_id)
        self.check("query_after_the_second_attempt", found[0] == pdus.OK and found[2] == pdus.DELIVERED, found)

    def ends(self):
        self.check("main_session_lives", not self.main.is_ended and self.main.unbind() == pdus.OK, "it is gone")


PARTS = (Plain.silence, Plain.vanish, Plain.full_account, Plain.queue, Plain.at_once, Plain.before_bind, Plain.roles, Plain.window, Plain.pieces,
         Plain.wrong_lengths, Plain.longest, Plain.older_version, Plain.answers_of_all_kinds, Plain.two_hundred, Plain.two_sessions, Plain.flaps, Plain.fair,
         Plain.never_reads, Plain.places, Plain.silence_ends, Plain.full_account_goes_on, Plain.vanished_one_returns, Plain.ends)


def out_of_time(*_):
    raise SystemExit(f"not ok in_time: {SECONDS} seconds are over")


def main():
    if len(sys.argv) != 4:
        sys.exit(__doc__)
    signal.signal(signal.SIGALRM, out_of_time)
    signal.alarm(SECONDS)
    checks = Checks()
    with contextlib.ExitStack() as stack:
        plain = Plain([int(word) for word in sys.argv[1:]], checks, stack)
        for part in PARTS:
            try:
                plain.tend()
                part(plain)
            except (Ended, OSError, ValueError, TypeError, AttributeError, IndexError, StopIteration) as fault:
                checks.check(f"whole_of_{part.__name__}", False, f"{type(fault).__name__}: {fault}")
    checks.end()


if __name__ == "__main__":
    main()
