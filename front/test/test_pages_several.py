"""Several things at once: waivers of a loan, penalties of an office; each line with its result, and sent again."""
import json
import unittest

import test_pages_loans as loans
import test_pages_rounds as rounds

# the tests' own fetch loses the reply of the second writing
LOSE_SECOND = """
const real = window.fetch; let count = 0;
window.fetch = async (url, options) => {
    const reply = await real(url, options);
    if (options.method === 'POST' && ++count === 2) throw new TypeError('lost');
    return reply;
};
"""


class Waivers(loans.Case):
    def test_everything_but_principal(self):
        """All interest of three instalments: 10.00, 6.67 and 3.33, with one reason; a lost reply is sent again."""
        with loans.desk_with(loans.PAID_OUT) as it:
            ruth = self.reader(it, "ruth", width=360, height=740)
            ruth.go("waivers/0002-000001")
            ruth.script(LOSE_SECOND)
            ruth.press("Everything but principal")
            ruth.press("Waive 3 lines")
            self.assertIn("Type why, in 1 to 200 characters", ruth.text("main"))
            ruth.fill("Reason", "a flood", within="main")
            ruth.press("Waive 3 lines")
            ruth.wait(lambda: ruth.all("[data-result=lost]"), "the lost reply")
            self.assertIn("The connection was lost.", ruth.text("main"))
            self.assertEqual(len(ruth.all("[data-result=entered]")), 1)
            ruth.press("Waive 2 lines")
            ruth.wait(lambda: ruth.all("[data-result=repeated]") and len(ruth.all("[data-result=entered]")) == 2, "all")
            told = it.send("ruth", "GET", "/api/loans/0002-000001/entries")[1]["entries"]
            self.assertEqual(
                [(one["instalment"], one["portion"], one["amount"]) for one in told],
                [(1, "interest", 1000), (2, "interest", 667), (3, "interest", 333)],
            )
            bodies = [json.loads(line["body"]) for line in it.log if line["path"].endswith("/waivers")]
            self.assertEqual({one["reason"] for one in bodies}, {"a flood"})
            ruth.reload()
            self.assertIn("No interest, fees or penalties are left to pay.", ruth.text("main"))
            self.assertEqual(ruth.errors(), [])


class Penalties(loans.Case):
    def test_all_overdue_of_an_office(self):
        """A tenth of 333.33 and 10.00 is 34.33 for each of 40 loans; one is left out, one has a penalty already."""
        lines = rounds.FORTY + b'2/2 POST /loans/0002-000005/penalties {"instalment":1}\n'
        with loans.desk_with(lines) as it:
            zoe = self.reader(it, "zoe")
            zoe.go("arrears/2")
            zoe.press("Enter penalties")
            zoe.wait(lambda: zoe.title() == "Penalties of 2 North", "the page")
            zoe.settle()
            shown = zoe.table("Penalties of 2 North")
            self.assertEqual(len(shown), rounds.COUNT - 1)
            told = {(row["Amount"], row["Days overdue"], row["Charge"]) for row in shown}
            self.assertEqual(told, {("34.33", "31", "Late")})
            zoe.all("tbody input")[0].click()
            it.send("zoe", "POST", "/api/loans/0002-000002/penalties", {"instalment": 1})
            zoe.press("Enter 38 penalties")
            zoe.wait(lambda: "37 entered · 1 refused" in zoe.text("main") and zoe.all("[data-result=F14]"), "results")
            for loan in range(1, rounds.COUNT + 1):
                told = it.send("zoe", "GET", f"/api/loans/0002-{loan:06}/entries")[1]["entries"]
                self.assertEqual([one["amount"] for one in told], [] if loan == 1 else [3433])
            zoe.reload()
            self.assertEqual(len(zoe.table("Penalties of 2 North")), 1)
            self.assertEqual(zoe.errors(), [])


if __name__ == "__main__":
    unittest.main()
