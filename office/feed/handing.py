"""Sends reports to the desk over HTTP, and records the answer to each."""
import http.client
import json

TIMEOUT = 20

WHY = {
    "TooLong": "longer than 2,048 bytes",
    "Missing": "ends before group {group}",
    "NotStation": "group {group} should be a station (a capital letter, then three capitals or digits)",
    "NotTime": "group {group} should be a time such as 121651Z",
    "BadVisibility": "group {group} ends in SM but isn't a visibility",
    "BadSky": "group {group} isn't a sky layer, though it begins with FEW, SCT, BKN, OVC or VV",
    "BadPeriod": "group {group} should be a period such as 1212/1318, or the word TAF is missing",
}


class Unreached(Exception):
    """The desk didn't answer, so nobody knows whether it admitted the report. The feed sends it again under the same number."""


class Stopped(Exception):
    """The feed can't go on until a person repairs something."""


def reason(reply):
    """Why the desk refused a report, in plain English."""
    number = reply["refused"]
    if number == 5:
        return WHY.get(reply["what"], "unreadable ({what}, group {group})").format(**reply)
    if number == 6:
        return "the day in group %s is too far from today" % reply["group"]
    if number == 25:
        return "its station isn't in airports.csv"
    return "refusal %d %s" % (number, reply["why"])


class Desk:
    """A connection to the desk in one actor's name. It is closed after each batch, since an idle connection delays others."""

    def __init__(self, host, port, actor, key):
        self.host, self.port, self.actor, self.key = host, port, actor, key
        self.link = None

    def admit(self, number, text):
        """Sends one report and returns the desk's reply as a dict."""
        ask = {"do": "admit", "text": text}
        body = json.dumps({"actor": self.actor, "ask": ask, "key": self.key, "number": number}, ensure_ascii=True)
        try:
            self.link = self.link or http.client.HTTPConnection(self.host, self.port, timeout=TIMEOUT)
            self.link.request("POST", "/call", body, {"Content-Type": "application/json"})
            reply = json.loads(self.link.getresponse().read())
        except (OSError, http.client.HTTPException, ValueError) as fault:
            self.close()
            raise Unreached("no answer from the desk: %s" % (str(fault) or type(fault).__name__)) from fault
        if not isinstance(reply, dict) or "error" in reply:
            self.close()
            raise Unreached("the desk answers %s" % json.dumps(reply))
        return reply

    def close(self):
        link, self.link = self.link, None
        if link:
            link.close()


def hand_in(outbox, desk, say, most=25):
    """Sends up to `most` of the reports that wait. Returns how many the desk answered."""
    answered = 0
    try:
        for number, text, origin in outbox.waiting(most):
            while number is not None:
                number = settle(outbox, number, text, origin, desk.admit(number, text), say)
            answered += 1
    finally:
        desk.close()
    return answered


def settle(outbox, number, text, origin, reply, say):
    """Records the reply to a report. Returns the number under which to send it again, or None."""
    refused = reply.get("refused")
    if "done" in reply:
        outbox.done(number)
    elif refused in (4, 27):
        # The number belongs to another command (4), or the desk has swept it (27). The report needs a new number.
        outbox.renumber(number, reply.get("floor", number))
        return outbox.number_of(text)
    elif refused in (1, 2, 3):
        raise Stopped("the desk rejects this feed (refusal %d %s): correct its key file, or its line in actors.csv" % (refused, reply["why"]))
    elif refused in (7, 24, 26):
        raise Unreached("the desk can't store reports now (refusal %d %s)" % (refused, reply["why"]))
    else:
        why = reason(reply) if refused else "the desk can't read the call (%s)" % json.dumps(reply)
        outbox.refuse(number, text, origin, why)
        say("refused: %s | %s | %s" % (text, why, origin))
    return None
