"""view_growths.py: each growth of `View::apply` is refused once, is answered by 39, and changes nothing.

The test driver applies a confirmation whose identity is one of a view of two accepted transfers, so that both are
contradicted. A refused growth must leave both texts of the view as before, which have its statuses, findings and
totals. The same batch applied again must then bring what it should.
"""
from tests.faults import growths
from tests.faults.growths import Trial, acceptance, instruction

OLD = """T|BANKDEFFXXX|T1|ACCEPTED
T|BANKDEFFXXX|T2|ACCEPTED
BANKDEFFXXX|2|150.00|0.00|0|0|0|0|0|0.00|0.00
BANQFRPPXXX|0|0.00|0.00|0|0|0|0|2|150.00|0.00
"""
NEW = """T|BANKDEFFXXX|T1|CONTRADICTED
F|BANKDEFFXXX|T1|Identity|BANQFRPPXXX|pacs.002|C1
T|BANKDEFFXXX|T2|CONTRADICTED
F|BANKDEFFXXX|T2|Identity|BANQFRPPXXX|pacs.002|C1
BANKDEFFXXX|0|0.00|0.00|0|0|0|2|0|0.00|0.00
"""
REFUSED = f"4 2\n39\n{OLD}1 2\n{NEW}"
APPLIED = f"4 2\n1 2\n{NEW}0 0\n{NEW}"

# A view of two accepted transfers, and then a batch that contradicts both, tried twice.
LINES = [instruction("M1", "T1", "100.00"), acceptance("C1", "T1"),
         instruction("M2", "T2", "50.00"), acceptance("C2", "T2"), "",
         acceptance("C1", "T2"), "try", "tell", "try", "tell"]


def main():
    growths.end([Trial("a late contradiction", ["views"], LINES, APPLIED, {"apply": {"39": REFUSED}}, harmless=2)])


if __name__ == "__main__":
    main()
