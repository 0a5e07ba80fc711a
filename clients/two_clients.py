"""Two clients of a Matrix library (Debian's python3-matrix-nio) in a room of a server, and what each of them holds in the end.

Alice makes a room and invites bob, who joins. Each has a task that syncs with long polls of 30 seconds, fills the gap of a limited
timeline from /messages, and empties an event once it sees its redaction; bob asks for timelines of one event, so that there are
gaps. They send 100 messages in turn, each once its sender holds the one before; alice redacts one of bob's. Then five lists of
the room's events are compared, in order, with their contents: what alice and bob hold, what each reads by paging back from its
last token to the room's start, and what a first sync of alice's second device sends. Ends with status 0 and a line of what
agrees, or with 1 and what differs or was still awaited after 50 seconds.

Usage: /usr/bin/python3 two_clients.py URL [CERTIFICATE]. clients/two_clients starts a server for it. With a certificate the URL is one of https, of a
server which passes the paths of the older API on, as clients/behind_nginx starts one.
"""
import asyncio
import ssl
import sys

import nio

MESSAGES = 100
REDACTED = 49
LIMIT = 50


def timelines(limit):
    """A filter for timelines of at most so many events."""
    return {"room": {"timeline": {"limit": limit}}}


def ask_for_v3():
    """Has the library ask for the paths of v3. This release of it (0.20.1) asks for those of the older API, r0, and has no setting for it.
    Those that are asked for here are the same but for the prefix, which is the last default of the function that builds each path."""
    nio.Api._build_path.__defaults__ = (None, "/_matrix/client/v3")


def trust(certificate):
    """What takes this certificate alone for a server's; nothing where there is none."""
    return certificate and ssl.create_default_context(cafile=certificate)


class Differs(Exception):
    """What isn't as it should be."""


def good(response, wanted):
    """The response, which must be of the class that is wanted."""
    if not isinstance(response, wanted):
        raise Differs("%s in the place of %s" % (response, wanted.__name__))
    return response


def read(events):
    """The JSON of each event. The library must have taken all but the creation of the room: it wants the `creator` there that
    version 11 of rooms has no more."""
    for event in events:
        if isinstance(event, (nio.BadEvent, nio.UnknownBadEvent)) and event.source["type"] != "m.room.create":
            raise Differs("nio refuses %s" % event.source)
    return [event.source for event in events]


class Client:
    """A user's device, and the events of the room that it holds, the oldest first."""

    def __init__(self, url, trusted, user, device, token, limit):
        self.nio = nio.AsyncClient(url, "@%s:example.org" % user, device, ssl=trusted)
        # (a login restored by the library's own call would load a store of keys)
        self.nio.user_id, self.nio.access_token = self.nio.user, token
        self.limit, self.held, self.news = limit, [], asyncio.Condition()
        self.syncs, self.gaps, self.awaited = 0, 0, None

    async def sync(self):
        """One sync, from the last token on. What it sends goes to what is held. It must wait until there is something."""
        since = self.nio.next_batch
        response = good(await self.nio.sync(timeout=30000, sync_filter=timelines(self.limit)), nio.SyncResponse)
        if response.next_batch == since:
            raise Differs("a sync of %s was answered with nothing new" % self.nio.user)
        for room, joined in response.rooms.join.items():
            if joined.timeline.limited:
                self.gaps += 1
                await self.fill(room, joined.timeline.prev_batch)
            self.take(read(joined.timeline.events))
        self.syncs += 1
        async with self.news:
            self.news.notify_all()

    async def follow(self):
        """Syncs until it is cancelled."""
        while True:
            await self.sync()

    async def fill(self, room, start):
        """Takes what is before a limited timeline and isn't held."""
        known = {event["event_id"] for event in self.held}
        before = await self.back(room, start, lambda page: any(event["event_id"] in known for event in page))
        self.take([event for event in before if event["event_id"] not in known])

    async def back(self, room, start, enough=lambda page: False):
        """The events of the pages from a token back to the room's start, or up to a page that is enough, the oldest first."""
        events = []
        while start:
            page = good(await self.nio.room_messages(room, start, limit=30), nio.RoomMessagesResponse)
            chunk = read(page.chunk)
            events += chunk
            start = None if enough(chunk) else page.end
        return events[::-1]

    def take(self, events):
        """Takes events in, and does to those that are held what a redaction asks."""
        self.held += events
        gone = {event["redacts"] for event in events if event["type"] == "m.room.redaction"}
        for event in self.held:
            if event["event_id"] in gone:
                event["content"] = {}

    async def holds(self, event_id):
        """Waits until the event is held."""
        self.awaited = event_id
        async with self.news:
            await self.news.wait_for(lambda: any(event["event_id"] == event_id for event in self.held))
        self.awaited = None


def compared(events):
    """What two readers of the same events must agree on. (A device alone is told its transaction ids.)"""
    fields = ("event_id", "type", "state_key", "sender", "origin_server_ts", "content", "redacts")
    return [{field: event.get(field) for field in fields} for event in events]


async def talk(alice, bob):
    """The room and the events that were sent, the last a redaction."""
    room = good(await alice.nio.room_create(name="Tea"), nio.RoomCreateResponse).room_id
    good(await alice.nio.room_invite(room, bob.nio.user), nio.RoomInviteResponse)
    good(await bob.nio.join(room), nio.JoinResponse)
    sent = []
    for number in range(MESSAGES):
        sender, other = (bob, alice) if number % 2 else (alice, bob)
        content = {"msgtype": "m.text", "body": "message %d" % number}
        answer = good(await sender.nio.room_send(room, "m.room.message", content), nio.RoomSendResponse)
        sent.append(answer.event_id)
        await other.holds(answer.event_id)
    redaction = good(await alice.nio.room_redact(room, sent[REDACTED], "off topic"), nio.RoomRedactResponse)
    sent.append(redaction.event_id)
    for client in (alice, bob):
        await client.holds(redaction.event_id)
    return room, sent


def check(lists, sent):
    """Each of the lists, by its name, is the first one, from the creation of the room to what was sent, in order, and shows the
    redacted event empty."""
    (name, first), *others = lists.items()
    for other, events in others:
        if len(events) != len(first):
            raise Differs("%s has %d events, %s has %d" % (name, len(first), other, len(events)))
        for mine, theirs in zip(compared(first), compared(events)):
            if mine != theirs:
                raise Differs("%s has %s, %s has %s" % (name, mine, other, theirs))
    last = first[-len(sent):]
    if first[0]["type"] != "m.room.create" or [event["event_id"] for event in last] != sent:
        raise Differs("%s doesn't begin with the room's creation or end with what was sent" % name)
    bodies = [event["content"].get("body") for event in last]
    wanted = ["message %d" % number for number in range(MESSAGES)] + [None]
    wanted[REDACTED] = None
    if bodies != wanted or last[REDACTED]["content"] != {}:
        raise Differs("%s has the texts %s" % (name, bodies))


async def compare(alice, bob, second):
    """The line of what agrees."""
    room, sent = await talk(alice, bob)
    lists = {"alice": alice.held, "bob": bob.held}
    for name, client in (("alice", alice), ("bob", bob)):
        lists[name + "'s pages"] = await client.back(room, client.nio.next_batch)
    first = good(await second.nio.sync(timeout=0, sync_filter=timelines(second.limit)), nio.SyncResponse)
    lists["a first sync"] = read(first.rooms.join[room].timeline.events)
    check(lists, sent)
    members = [sorted(client.nio.rooms[room].users) for client in (alice, bob, second)]
    if members != [[alice.nio.user, bob.nio.user]] * 3:
        raise Differs("the members are %s" % members)
    if bob.gaps == 0:
        raise Differs("no timeline of one event left a gap")
    said = "%d events agree, %d of them messages and one redacted: held by alice after %d syncs and by bob after %d (limited: %d)"
    said %= (len(alice.held), MESSAGES, alice.syncs, bob.syncs, bob.gaps)
    return said + ", paged back by both, and in a first sync"


async def main(url, certificate=None):
    """What agrees, or raises what doesn't."""
    devices = (("alice", "A1", "tok_a1", 20), ("bob", "B1", "tok_b1", 1), ("alice", "A2", "tok_a2", 1000))
    trusted = trust(certificate)
    clients = [Client(url, trusted, *device) for device in devices]
    tasks = [asyncio.create_task(client.follow()) for client in clients[:2]]
    talked = asyncio.create_task(compare(*clients))
    done, _ = await asyncio.wait([talked, *tasks], timeout=LIMIT, return_when=asyncio.FIRST_COMPLETED)
    for task in (talked, *tasks):
        task.cancel()
    await asyncio.gather(talked, *tasks, return_exceptions=True)
    for client in clients:
        await client.nio.close()
    if not done:
        awaited = ["%s by %s" % (client.awaited, client.nio.user) for client in clients if client.awaited]
        raise Differs("not done after %d seconds; awaited: %s" % (LIMIT, ", ".join(awaited) or "an answer"))
    # (a task that syncs ends by a fault alone)
    for task in done:
        task.result()
    return talked.result()


if not sys.argv[2:]:
    ask_for_v3()
try:
    print(asyncio.run(main(*sys.argv[1:])))
except Differs as error:
    print(error)
    sys.exit(1)
