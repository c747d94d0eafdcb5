"""Notes of visits in the pages: written without a network, sent when back, seen on the client's page by whoever sees
the client; and noted there at once."""
import contextlib
import json
import os

import desk
import test_pages_loans as loans
import test_pages_offline as offline
import test_pages_pack as pack

PLACE = offline.PLACE
CLIENT = "Client 2 · 0002-000002"
WORDS = "the roof leaks\nher sister pays on Friday"
LINES = offline.FEW + b"""1/1 POST /offices {"number":3,"parent":1,"name":"South"}
1/1 POST /staff {"office":3,"name":"Sami","role":"teller"}
"""
PEOPLE = loans.PEOPLE | {"sami": "3/1"}
NOTE = "Note of a visit"
STANDS, STOOD = "It stands on the client’s page.", "It stood on the client’s page already."
# a front of before, which has no place for notes
OLDER = """
const real = window.fetch;
window.fetch = (url, more) => /[/]visits[/]/.test(url) ? Promise.resolve(new Response('<html>', {status: 404})) :
    real(url, more);
"""


@contextlib.contextmanager
def desk_of_two_offices():
    with desk.Desk(lines=LINES, people=PEOPLE) as it:
        assert all(reply.startswith("20") for reply in it.replies), it.replies
        yield it


def kept(it, client="0002-000002"):
    """The notes in a client's file."""
    path = os.path.join(it.nginx.visits, client)
    if not os.path.exists(path):
        return []
    with open(path, encoding="utf-8") as file:
        return [json.loads(line) for line in file]


def visits(reader):
    """The visits on the page that is shown: who and when, and what was noted."""
    heads, texts = (reader.all(f".visits {part}") for part in (".visit-head", ".as-typed"))
    return [(head.text, text.text) for head, text in zip(heads, texts)]


class Sent(offline.DraftCase):
    """A note that was written on a phone becomes a request once it is sent."""

    def test_written_without_a_network(self):
        """Sent when back; another person of the office reads it on the client's page, one of another office doesn't."""
        with desk_of_two_offices() as it:
            zoe = self.on_phone(it)
            zoe.network(offline.CUT)
            zoe.draft(NOTE, Client=CLIENT, Note=WORDS)
            self.told(zoe, NOTE, "Not sent yet.")
            self.assertEqual(zoe.bar(), "1 not sent, 0.00, since HH:MM")
            zoe.look("visits-outbox-waits")
            zoe.network(offline.OPEN)
            it.let_in(zoe.driver, "zoe")
            zoe.open_kept()
            zoe.follow("Drafts (1)")
            self.press(zoe, NOTE)
            self.told(zoe, NOTE, STANDS)
            zoe.wait(lambda: zoe.bar() == "", "the end of the bar")
            self.assertIsNone(self.button(zoe, NOTE, "Send"))
            zoe.look("visits-outbox-sent")
            (note,) = kept(it)
            told = [note[name] for name in ("user", "staff", "day", "text")]
            self.assertEqual(told, ["zoe", "2/2", "2024-03-31", WORDS])
            self.on_the_sheet(it, zoe)
            self.seen_by_others(it)

    def on_the_sheet(self, it, zoe):
        zoe.open_kept()
        zoe.follow("Hand-over of cash")
        zoe.wait(lambda: "Notes of visits" in zoe.text(".handover"), "the notes")
        told = [words for words in zoe.script(offline.FACTS) if words[0].startswith("Client")]
        self.assertEqual(told, [[CLIENT, f"{WORDS}\n{STANDS}"]])

    def seen_by_others(self, it):
        tom = offline.Phone(it, "tom")
        self.addCleanup(tom.close)
        tom.go("client/0002-000002")
        tom.wait(lambda: visits(tom) == [("Mar 31, 2024 · zoe · 2/2", WORDS)], "the visit")
        tom.script("document.querySelector('.visits').scrollIntoView()")
        tom.look("visits-client")
        self.assertEqual(tom.errors(), [])
        sami = offline.Phone(it, "sami")
        self.addCleanup(sami.close)
        sami.go("client/0002-000002")
        sami.wait(lambda: "F4" in sami.text("main"), "the refusal")
        self.assertEqual((visits(sami), "roof" in sami.text("body")), ([], False))

    def test_a_lost_reply(self):
        """It was kept, and no reply came: sent again it is told so, and stands once."""
        with loans.desk_with(offline.FEW) as it:
            zoe = self.on_phone(it)
            zoe.draft(NOTE, Client=CLIENT, Note=WORDS)
            self.lose(zoe, "/visits/0002-000002", True)
            self.press(zoe, NOTE)
            self.told(zoe, NOTE, "No reply came: the connection was lost.")
            self.told(zoe, NOTE, "Sent, and no reply came. Send it again: it is kept once.")
            zoe.open_kept()
            zoe.follow("Drafts (1)")
            self.press(zoe, NOTE)
            self.told(zoe, NOTE, STOOD)
            self.assertEqual([note["text"] for note in kept(it)], [WORDS])

    def test_a_phone_that_dies(self):
        """Between sending and answer: it stands once, whatever page sends it again."""
        with loans.desk_with(offline.FEW) as it:
            zoe = self.on_phone(it)
            zoe.draft(NOTE, Client=CLIENT, Note=WORDS)
            zoe.script(self.HANGING)
            self.press(zoe, NOTE)
            zoe.wait(lambda: kept(it), "the note")
            zoe.open_kept()
            zoe.follow("Drafts (1)")
            self.told(zoe, NOTE, "Sent, and no reply came.")
            self.press(zoe, NOTE)
            self.told(zoe, NOTE, STOOD)
            self.assertEqual([note["text"] for note in kept(it)], [WORDS])

    def test_what_is_refused(self):
        """It is told in words, waits on, and is sent later."""
        with loans.desk_with(offline.FEW) as it:
            zoe = self.on_phone(it)
            zoe.draft(NOTE, Client=CLIENT, Note=WORDS)
            with open(it.nginx.shut, "w", encoding="ascii"):
                pass
            self.press(zoe, NOTE)
            self.told(zoe, NOTE, "The desk takes nothing new at the moment")
            self.told(zoe, NOTE, "Not sent yet.")
            os.unlink(it.nginx.shut)
            os.rename(it.nginx.visits, it.nginx.visits + "-away")
            self.press(zoe, NOTE)
            self.told(zoe, NOTE, "The note could not be written.")
            os.rename(it.nginx.visits + "-away", it.nginx.visits)
            self.assertEqual(zoe.bar(), "1 not sent, 0.00, since HH:MM")
            self.press(zoe, NOTE)
            self.told(zoe, NOTE, STANDS)

    def test_of_a_client_that_is_a_draft(self):
        """The client first; a note of no client stays on the phone."""
        with loans.desk_with(offline.FEW) as it:
            zoe = self.on_phone(it)
            zoe.draft("New client", Name="Bahati")
            zoe.draft(NOTE, Client="Bahati", Note=WORDS)
            self.press(zoe, NOTE)
            self.told(zoe, NOTE, "Send the draft of Bahati first.")
            self.press(zoe, "New client")
            self.told(zoe, "New client", "Client 0002-000006 is entered.")
            self.press(zoe, NOTE)
            self.told(zoe, NOTE, STANDS)
            self.assertEqual([note["text"] for note in kept(it, "0002-000006")], [WORDS])
            zoe.draft(NOTE, Note="the bridge is closed")
            self.told(zoe, NOTE, "It stays on this phone, and is printed with the hand-over.")
            self.assertIsNone(self.button(zoe, NOTE, "Send"))
            zoe.wait(lambda: zoe.bar() == "", "no bar")

    def test_an_older_front(self):
        """It has no place for notes: the note stays a draft that the sheet has; a front of today takes it later."""
        with loans.desk_with(offline.FEW) as it:
            zoe = self.on_phone(it)
            zoe.draft(NOTE, Client=CLIENT, Note=WORDS)
            zoe.script(OLDER)
            self.press(zoe, NOTE)
            self.told(zoe, NOTE, "It stays on this phone, and is printed with the hand-over.")
            zoe.wait(lambda: zoe.bar() == "", "no bar")
            zoe.script("location.hash = '#/client/0002-000002'")
            zoe.wait(lambda: "Loans of this client" in zoe.text("main"), "the client")
            zoe.settle()
            self.assertNotIn("Visits", zoe.text("main"))
            zoe.open_kept()
            zoe.follow("Drafts")
            self.press(zoe, NOTE)
            self.told(zoe, NOTE, STANDS)


class OnThePage(offline.DraftCase):
    """Noted at the desk, on the client's page."""

    def noted(self, reader, words, day=None):
        reader.open_dialog("Note a visit")
        if day:
            reader.fill("Day of the visit", day)
        reader.fill("Note", words)

    def test_noted_and_told(self):
        with loans.desk_with(offline.FEW) as it:
            tom = self.phone(it, "tom")
            tom.go("client/0002-000002")
            tom.wait(lambda: "No visit is noted yet." in tom.text("main"), "no visit")
            tom.script("[...document.querySelectorAll('.card')].at(-1).scrollIntoView()")
            tom.look("visits-client-none")
            self.noted(tom, "  \n ")
            tom.press("Keep the note", ".modal.show")
            tom.wait(lambda: "Type 1 to 1,000 characters" in tom.text(".modal"), "what is wrong")
            tom.fill("Note", WORDS)
            tom.look("visits-dialog")
            tom.send("Keep the note")
            self.assertEqual(tom.note(), "The note is kept.")
            first = ("Mar 31, 2024 · tom · 2/3", WORDS)
            tom.wait(lambda: visits(tom) == [first], "the visit")
            self.noted(tom, "", "2024-03-30")
            tom.script("arguments[0].value = arguments[1]", tom.field("Note"), "paid\tin full <b>today</b>")
            tom.send("Keep the note")
            before = ("Mar 30, 2024 · tom · 2/3", "paid in full <b>today</b>")
            tom.wait(lambda: visits(tom) == [first, before], "the last day first")
            self.assertEqual(tom.errors(), [])
            tom.script("document.querySelector('.toast')?.remove()")
            tom.script("[...document.querySelectorAll('.card')].at(-1).scrollIntoView()")
            tom.look("visits-client-two")

    def test_on_the_page_of_a_day_pack(self):
        """Where the desk answers it has the visits; without a network it is as ever."""
        with loans.desk_with(offline.FEW) as it:
            zoe = pack.Phone(it, "zoe")
            self.addCleanup(zoe.close)
            zoe.take_day()
            zoe.go("pack/2/0002-000002")
            self.noted(zoe, WORDS)
            zoe.send("Keep the note")
            zoe.wait(lambda: visits(zoe) == [("Mar 31, 2024 · zoe · 2/2", WORDS)], "the visit")
            zoe.network(offline.CUT)
            zoe.open_pack("pack/2/0002-000002")
            zoe.wait(lambda: "Loan 0002-000002" in zoe.text("main"), "the loan")
            zoe.settle()
            self.assertEqual((visits(zoe), zoe.all("main .alert-danger")), ([], []))

    def test_a_lost_reply(self):
        """Sent again, the same words are kept once; other words are another note."""
        with loans.desk_with(offline.FEW) as it:
            tom = self.phone(it, "tom")
            tom.go("client/0002-000002")
            self.lose(tom, "/visits/0002-000002", True)
            self.noted(tom, "first")
            self.assertIn("No reply came", tom.refused("Keep the note"))
            self.assertEqual([note["text"] for note in kept(it)], ["first"])
            tom.fill("Note", "second")
            self.assertIn("No reply came", tom.refused("Keep the note"))
            tom.press("Keep the note", ".modal.show")
            tom.wait(lambda: "No reply came" in tom.text(".modal .alert"), "the refusal")
            self.assertEqual([note["text"] for note in kept(it)], ["first", "second"])
            tom.cancel()
            tom.reload()
            tom.wait(lambda: [text for _, text in visits(tom)] == ["second", "first"], "both")
